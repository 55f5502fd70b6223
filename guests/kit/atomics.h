/* Put before each file by -include: of three builtins GCC makes plain accesses, though it is told to call a function for each
   atomic. Here they are calls too. It is a system header, so that no dialect of C is refused for it. */
#ifndef ROMAIN_ATOMICS_H
#define ROMAIN_ATOMICS_H

#pragma GCC system_header

#define __atomic_test_and_set(place, order) (__atomic_exchange_n((volatile unsigned char *)(place), 1, (order)) != 0)
#define __atomic_clear(place, order) __atomic_store_n((volatile unsigned char *)(place), 0, (order))
#define __sync_lock_release(place, ...) __atomic_store_n((place), 0, __ATOMIC_RELEASE)

#endif
