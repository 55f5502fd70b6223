# The functions of POSIX threads. Romain takes the call where the pc comes to the address of one of these symbols, and goes
# on behind the caller's jump; so no body is ever run. Each needs an address of its own and the type of a function. Each stands
# in a section of its own, so that a link with --gc-sections keeps those that are called; a relocation of no effect, which has
# another number in each, keeps a linker from folding these equal sections.
#
# Of some a program's calls go to a weak name of the same address (include/pthread.h), which the kit's own functions of threads/
# take the place of where they are linked.

    .macro stub name
    .section .text.\name, "ax", @progbits
    .balign 4
    .globl \name
    .type \name, @function
\name:
    .reloc ., R_RISCV_NONE, \@
    ebreak
    .size \name, . - \name
    .endm

    .macro replaceable_stub name
    stub \name
    .weak romain_\name
    .set romain_\name, \name
    .endm

    replaceable_stub pthread_create
    replaceable_stub pthread_join
    replaceable_stub pthread_exit
    stub pthread_self
    replaceable_stub pthread_mutex_init
    stub pthread_mutex_destroy
    replaceable_stub pthread_mutex_lock
    replaceable_stub pthread_mutex_trylock
    replaceable_stub pthread_mutex_unlock
    stub pthread_cond_init
    stub pthread_cond_destroy
    stub pthread_cond_wait
    stub pthread_cond_signal
    stub pthread_cond_broadcast

# The number of the thread that calls, without a call of the kernel: it is in tp where no C library keeps its data there.
    .section .text.romain_self, "ax", @progbits
    .balign 4
    .weak romain_self
    .type romain_self, @function
romain_self:
    mv a0, tp
    ret
    .size romain_self, . - romain_self
