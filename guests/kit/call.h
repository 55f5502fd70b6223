// A call of the kernel, on which all else of the kit stands, with a C library or without one.
#ifndef ROMAIN_CALL_H
#define ROMAIN_CALL_H

#include <stdint.h>

// The call of this number: up to three words in, one word out. A negative answer is an error.
static inline int32_t romain_call(int32_t number, uint32_t first, uint32_t second, uint32_t third)
{
    register uint32_t a0 __asm__("a0") = first;
    register uint32_t a1 __asm__("a1") = second;
    register uint32_t a2 __asm__("a2") = third;
    register int32_t a7 __asm__("a7") = number;
    __asm__ volatile("ecall" : "+r"(a0) : "r"(a1), "r"(a2), "r"(a7) : "memory");
    return (int32_t)a0;
}

// The same of four words.
static inline int32_t romain_call_of_four(int32_t number, uint32_t first, uint32_t second, uint32_t third, uint32_t fourth)
{
    register uint32_t a0 __asm__("a0") = first;
    register uint32_t a1 __asm__("a1") = second;
    register uint32_t a2 __asm__("a2") = third;
    register uint32_t a3 __asm__("a3") = fourth;
    register int32_t a7 __asm__("a7") = number;
    __asm__ volatile("ecall" : "+r"(a0) : "r"(a1), "r"(a2), "r"(a3), "r"(a7) : "memory");
    return (int32_t)a0;
}

#endif
