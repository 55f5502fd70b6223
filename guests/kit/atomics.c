// What compilers call for atomics, in the sizes 1, 2 and 4. Each access is an LR, an SC or an AMO, on which the replicas vote, so
// that all see the same. Built with the atomic instructions, and the only file of a guest that has any. Every order that a
// caller asks for is the strictest one.
#include <stdbool.h>
#include <stddef.h>
#include <stdint.h>

// Compilers know the functions by these names, and don't let them be defined under them.
#define FUNCTION(result, name, parameters) result kit##name parameters __asm__(#name); result kit##name parameters
#define INLINE __attribute__((always_inline)) static inline

// ---- The instructions

INLINE uint32_t load_reserved(volatile uint32_t *word)
{
    uint32_t value;
    __asm__ volatile("lr.w.aqrl %0, (%1)" : "=r"(value) : "r"(word) : "memory");
    return value;
}

INLINE bool store_fails(volatile uint32_t *word, uint32_t value)
{
    uint32_t failed;
    __asm__ volatile("sc.w.aqrl %0, %2, (%1)" : "=&r"(failed) : "r"(word), "r"(value) : "memory");
    return failed != 0;
}

#define INSTRUCTION(name, mnemonic) \
    INLINE uint32_t name(volatile uint32_t *word, uint32_t operand) \
    { \
        uint32_t old; \
        __asm__ volatile(mnemonic ".aqrl %0, %2, (%1)" : "=r"(old) : "r"(word), "r"(operand) : "memory"); \
        return old; \
    }

INSTRUCTION(amoswap, "amoswap.w")
INSTRUCTION(amoadd, "amoadd.w")
INSTRUCTION(amoand, "amoand.w")
INSTRUCTION(amoor, "amoor.w")
INSTRUCTION(amoxor, "amoxor.w")

// ---- Fields: words, and bytes and halfwords of their word

struct field {
    volatile uint32_t *word;
    uint32_t shift, mask;
};

// One that isn't aligned has a word that isn't aligned, which is a trap.
INLINE struct field field_of(const volatile void *place, size_t size)
{
    uintptr_t offset = (uintptr_t)place & (4 - size);
    uint32_t shift = 8 * offset;
    return (struct field) { (volatile uint32_t *)((uintptr_t)place - offset), shift, UINT32_MAX >> (32 - 8 * size) << shift };
}

INLINE uint32_t value_in(struct field field, uint32_t word)
{
    return (word & field.mask) >> field.shift;
}

// Callers need not extend a byte or a halfword to the register's size: its upper bits are cut off.
INLINE uint32_t placed(struct field field, uint32_t value)
{
    return value << field.shift & field.mask;
}

INLINE uint32_t word_with(struct field field, uint32_t word, uint32_t value)
{
    return (word & ~field.mask) | placed(field, value);
}

// ---- What is done with a field

enum operation { EXCHANGE, ADD, SUB, AND, OR, XOR, NAND };

INLINE uint32_t combined(enum operation operation, uint32_t old, uint32_t operand)
{
    switch (operation) {
    case ADD:
        return old + operand;
    case SUB:
        return old - operand;
    case NAND:
        return ~(old & operand);
    default:
        return operand;
    }
}

// What changes nothing isn't stored. So a thread that looks by exchanges makes no other thread's SC fail.
INLINE uint32_t old_by_loop(struct field field, enum operation operation, uint32_t operand)
{
    uint32_t old, new;
    do {
        old = load_reserved(field.word);
        new = word_with(field, old, combined(operation, value_in(field, old), operand));
    } while (new != old && store_fails(field.word, new));
    return old;
}

// The word before the operation. One instruction does it where it leaves the other bytes of the word alone.
INLINE uint32_t old_word(struct field field, enum operation operation, uint32_t operand)
{
    bool is_word = field.mask == UINT32_MAX;
    switch (operation) {
    case AND:
        return amoand(field.word, placed(field, operand) | ~field.mask);
    case OR:
        return amoor(field.word, placed(field, operand));
    case XOR:
        return amoxor(field.word, placed(field, operand));
    case ADD:
        return is_word ? amoadd(field.word, operand) : old_by_loop(field, operation, operand);
    case SUB:
        return is_word ? amoadd(field.word, -operand) : old_by_loop(field, operation, operand);
    case EXCHANGE:
        return is_word ? amoswap(field.word, operand) : old_by_loop(field, operation, operand);
    default:
        return old_by_loop(field, operation, operand);
    }
}

INLINE uint32_t load(const volatile void *place, size_t size)
{
    struct field field = field_of(place, size);
    return value_in(field, load_reserved(field.word));
}

// Zeros, as of a lock that is let go, and ones are stored by one instruction in any size. It stores whatever others store meanwhile.
INLINE void store(volatile void *place, size_t size, uint32_t value)
{
    struct field field = field_of(place, size);
    uint32_t bits = placed(field, value);
    if (size < 4 && bits == 0)
        amoand(field.word, ~field.mask);
    else if (size < 4 && bits == field.mask)
        amoor(field.word, field.mask);
    else
        old_word(field, EXCHANGE, value);
}

// The value before the operation.
INLINE uint32_t update(volatile void *place, size_t size, enum operation operation, uint32_t operand)
{
    struct field field = field_of(place, size);
    return value_in(field, old_word(field, operation, operand));
}

// The value before it; where that is the wanted one, the desired one is there now.
INLINE uint32_t swap_where(volatile void *place, size_t size, uint32_t wanted, uint32_t desired)
{
    struct field field = field_of(place, size);
    uint32_t old;
    do
        old = load_reserved(field.word);
    while ((old & field.mask) == placed(field, wanted) && store_fails(field.word, word_with(field, old, desired)));
    return value_in(field, old);
}

// ---- The callers' own values, which need not be aligned

INLINE uint32_t own_value(const void *place, size_t size)
{
    const uint8_t *bytes = place;
    uint32_t value = 0;
    for (size_t i = 0; i < size; i++)
        value |= (uint32_t)bytes[i] << 8 * i;
    return value;
}

INLINE void set_own_value(void *place, size_t size, uint32_t value)
{
    uint8_t *bytes = place;
    for (size_t i = 0; i < size; i++)
        bytes[i] = (uint8_t)(value >> 8 * i);
}

INLINE bool compare_exchange(volatile void *place, size_t size, void *expected, uint32_t desired)
{
    uint32_t wanted = own_value(expected, size), old = swap_where(place, size, wanted, desired);
    if (old != wanted)
        set_own_value(expected, size, old);
    return old == wanted;
}

// ---- Of each size

#define OPERATION(size, name, operation) \
    FUNCTION(uint32_t, __atomic_fetch_##name##_##size, (volatile void *place, uint32_t operand, int order)) \
    { \
        (void)order; \
        return update(place, size, operation, operand); \
    } \
    FUNCTION(uint32_t, __sync_fetch_and_##name##_##size, (volatile void *place, uint32_t operand)) \
    { \
        return update(place, size, operation, operand); \
    }

// The new value, by the same operation on the old one.
#define OPERATION_FIRST(size, type, name, operation, expression) \
    OPERATION(size, name, operation) \
    FUNCTION(uint32_t, __sync_##name##_and_fetch_##size, (volatile void *place, uint32_t operand)) \
    { \
        uint32_t old = update(place, size, operation, operand); \
        return (type)(expression); \
    }

#define SIZE(size, type) \
    FUNCTION(uint32_t, __atomic_load_##size, (const volatile void *place, int order)) \
    { \
        (void)order; \
        return load(place, size); \
    } \
    FUNCTION(void, __atomic_store_##size, (volatile void *place, uint32_t value, int order)) \
    { \
        (void)order; \
        store(place, size, value); \
    } \
    FUNCTION(uint32_t, __atomic_exchange_##size, (volatile void *place, uint32_t value, int order)) \
    { \
        (void)order; \
        return update(place, size, EXCHANGE, value); \
    } \
    FUNCTION(bool, __atomic_compare_exchange_##size, \
             (volatile void *place, void *expected, uint32_t desired, int order, int order_of_failure)) \
    { \
        (void)order, (void)order_of_failure; \
        return compare_exchange(place, size, expected, desired); \
    } \
    FUNCTION(uint32_t, __sync_lock_test_and_set_##size, (volatile void *place, uint32_t value)) \
    { \
        return update(place, size, EXCHANGE, value); \
    } \
    FUNCTION(void, __sync_lock_release_##size, (volatile void *place)) \
    { \
        store(place, size, 0); \
    } \
    FUNCTION(uint32_t, __sync_val_compare_and_swap_##size, (volatile void *place, uint32_t wanted, uint32_t desired)) \
    { \
        return swap_where(place, size, wanted, desired); \
    } \
    FUNCTION(bool, __sync_bool_compare_and_swap_##size, (volatile void *place, uint32_t wanted, uint32_t desired)) \
    { \
        return swap_where(place, size, wanted, desired) == (type)wanted; \
    } \
    OPERATION_FIRST(size, type, add, ADD, old + operand) \
    OPERATION_FIRST(size, type, sub, SUB, old - operand) \
    OPERATION_FIRST(size, type, and, AND, old & operand) \
    OPERATION_FIRST(size, type, or, OR, old | operand) \
    OPERATION_FIRST(size, type, xor, XOR, old ^ operand) \
    OPERATION_FIRST(size, type, nand, NAND, ~(old & operand))

SIZE(1, uint8_t)
SIZE(2, uint16_t)
SIZE(4, uint32_t)

// ---- Of a size that is given

INLINE bool is_size(size_t size)
{
    return size == 1 || size == 2 || size == 4;
}

INLINE void need_size(size_t size)
{
    if (!is_size(size))
        __builtin_trap();
}

FUNCTION(bool, __atomic_is_lock_free, (size_t size, const volatile void *place))
{
    return is_size(size) && (uintptr_t)place % size == 0;
}

FUNCTION(void, __atomic_load, (size_t size, const volatile void *place, void *value, int order))
{
    (void)order;
    need_size(size);
    set_own_value(value, size, load(place, size));
}

FUNCTION(void, __atomic_store, (size_t size, volatile void *place, const void *value, int order))
{
    (void)order;
    need_size(size);
    store(place, size, own_value(value, size));
}

FUNCTION(void, __atomic_exchange, (size_t size, volatile void *place, const void *value, void *old, int order))
{
    (void)order;
    need_size(size);
    set_own_value(old, size, update(place, size, EXCHANGE, own_value(value, size)));
}

FUNCTION(bool, __atomic_compare_exchange,
         (size_t size, volatile void *place, void *expected, const void *desired, int order, int order_of_failure))
{
    (void)order, (void)order_of_failure;
    need_size(size);
    return compare_exchange(place, size, expected, own_value(desired, size));
}

// ---- Of a byte that is a flag, and of none

FUNCTION(bool, __atomic_test_and_set, (volatile void *place, int order))
{
    (void)order;
    return update(place, 1, EXCHANGE, 1) != 0;
}

FUNCTION(void, __atomic_clear, (volatile void *place, int order))
{
    (void)order;
    store(place, 1, 0);
}

FUNCTION(void, __sync_synchronize, (void))
{
    __asm__ volatile("fence" : : : "memory");
}
