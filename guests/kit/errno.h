// The kernel's error numbers, and those that the kit's functions answer beside them. There is no errno: each function answers its
// own. A program with a C library has that one's header in the place of this one.
#ifndef ROMAIN_ERRNO_H
#define ROMAIN_ERRNO_H

#define EPERM 1
#define ESRCH 3
#define EBADF 9
#define EAGAIN 11
#define ENOMEM 12
#define EFAULT 14
#define EBUSY 16
#define EINVAL 22
#define EDEADLK 35
#define ENOSYS 38
#define EOVERFLOW 75
#define ENOTSUP 95

#endif
