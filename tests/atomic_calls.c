// A guest of one thread that calls each function of guests/kit/atomics.c with drawn values on drawn places, and compares what comes
// back, and all bytes around the place, with the same done by plain accesses. It exits with 0, or with the number of the first
// function that is wrong. tests/atomics builds it, and runs it here and under qemu.
#include "romain.h"
#include <stdbool.h>

enum { ROUNDS = 2, BYTES = 8, SEQUENTIAL = 5 };

static uint8_t area[BYTES] __attribute__((aligned(4)));
static uint8_t wanted_area[BYTES];
static uint32_t last = 2026;
static int tried; // functions, so far

static uint32_t draw(void)
{
    last = last * 1664525 + 1013904223;
    return last >> 8 ^ last << 16;
}

static uint32_t value_of(const uint8_t *place, uint32_t size)
{
    uint32_t value = 0;
    for (uint32_t i = size; i > 0; i--)
        value = value << 8 | place[i - 1];
    return value;
}

static void set_value(uint8_t *place, uint32_t size, uint32_t value)
{
    for (uint32_t i = 0; i < size; i++)
        place[i] = (uint8_t)(value >> 8 * i);
}

static uint32_t cut(uint32_t size, uint32_t value)
{
    return size == 4 ? value : value & ((1u << 8 * size) - 1);
}

// The same value with drawn bits above it, as callers may leave them.
static uint32_t widened(uint32_t size, uint32_t value)
{
    return size == 4 ? value : value | draw() << 8 * size;
}

static void need(bool is_right)
{
    if (!is_right)
        exit(tried);
}

// Draws what the area holds, and answers where in it the call is to be.
static uint32_t begin(uint32_t size)
{
    tried++;
    for (uint32_t i = 0; i < BYTES; i++)
        area[i] = wanted_area[i] = (uint8_t)draw();
    return draw() % (BYTES / size) * size;
}

static void end(uint32_t size, uint32_t offset, uint32_t wanted)
{
    set_value(wanted_area + offset, size, wanted);
    need(memcmp(area, wanted_area, BYTES) == 0);
}

#define NAMED(result, name, parameters) result called_##name parameters __asm__(#name)

// A function that changes a value and answers the value before or behind the change.
#define CHANGES(size, name, arguments, answer, changed) \
    { \
        NAMED(uint32_t, name, (void *, uint32_t, int)); \
        uint32_t offset = begin(size), old = value_of(area + offset, size), operand = draw(); \
        uint32_t new = cut(size, changed); \
        need(called_##name(area + offset, arguments, SEQUENTIAL) == (answer)); \
        end(size, offset, new); \
        (void)old, (void)operand; \
    }

#define OPERATION(size, name, changed) \
    CHANGES(size, __atomic_fetch_##name##_##size, operand, old, changed) \
    CHANGES(size, __sync_fetch_and_##name##_##size, operand, old, changed) \
    CHANGES(size, __sync_##name##_and_fetch_##size, operand, new, changed)

#define STORES(size, value) \
    { \
        NAMED(void, __atomic_store_##size, (void *, uint32_t, int)); \
        uint32_t offset = begin(size), given = value; \
        called___atomic_store_##size(area + offset, given, SEQUENTIAL); \
        end(size, offset, given); \
    }

// A function that changes a value where it is the wanted one, which it is in every other call.
#define COMPARES(size, name, is_old) \
    for (int equal = 0; equal < 2; equal++) { \
        NAMED(uint32_t, name, (void *, uint32_t, uint32_t)); \
        uint32_t offset = begin(size), old = value_of(area + offset, size), desired = draw(); \
        uint32_t wanted = equal ? old : cut(size, old + 1 + draw() % 200); \
        need(called_##name(area + offset, widened(size, wanted), desired) == (is_old ? old : (uint32_t)equal)); \
        end(size, offset, equal ? cut(size, desired) : old); \
    }

static void try_exchange(uint32_t size, int equal, bool (*exchange)(uint32_t size, void *place, void *expected, uint32_t desired))
{
    uint8_t expected[BYTES];
    uint32_t offset = begin(size), old = value_of(area + offset, size), desired = draw();
    memset(expected, 7, sizeof expected);
    set_value(expected, size, equal ? old : old + 1);
    need(exchange(size, area + offset, expected, desired) == equal);
    need(value_of(expected, size) == old && expected[size] == 7);
    end(size, offset, equal ? cut(size, desired) : old);
}

#define EXCHANGES(size) \
    static bool exchange_##size(uint32_t of, void *place, void *expected, uint32_t desired) \
    { \
        NAMED(bool, __atomic_compare_exchange_##size, (void *, void *, uint32_t, int, int)); \
        (void)of; \
        return called___atomic_compare_exchange_##size(place, expected, desired, SEQUENTIAL, SEQUENTIAL); \
    }

EXCHANGES(1)
EXCHANGES(2)
EXCHANGES(4)

static bool exchange_of(uint32_t size, void *place, void *expected, uint32_t desired)
{
    NAMED(bool, __atomic_compare_exchange, (uint32_t, void *, void *, void *, int, int));
    return called___atomic_compare_exchange(size, place, expected, &desired, SEQUENTIAL, SEQUENTIAL);
}

#define SIZE(size) \
    static void try_size_##size(void) \
    { \
        NAMED(uint32_t, __atomic_load_##size, (void *, int)); \
        uint32_t loaded = begin(size), held = value_of(area + loaded, size); \
        need(called___atomic_load_##size(area + loaded, SEQUENTIAL) == held); \
        end(size, loaded, held); \
        STORES(size, draw()) \
        STORES(size, 0) \
        STORES(size, UINT32_MAX) \
        NAMED(void, __sync_lock_release_##size, (void *)); \
        uint32_t released = begin(size); \
        called___sync_lock_release_##size(area + released); \
        end(size, released, 0); \
        CHANGES(size, __atomic_exchange_##size, operand, old, operand) \
        CHANGES(size, __atomic_exchange_##size, old, old, old) \
        CHANGES(size, __sync_lock_test_and_set_##size, operand, old, operand) \
        OPERATION(size, add, old + operand) \
        OPERATION(size, sub, old - operand) \
        OPERATION(size, and, old & operand) \
        OPERATION(size, or, old | operand) \
        OPERATION(size, xor, old ^ operand) \
        OPERATION(size, nand, ~(old & operand)) \
        COMPARES(size, __sync_val_compare_and_swap_##size, true) \
        COMPARES(size, __sync_bool_compare_and_swap_##size, false) \
        for (int equal = 0; equal < 2; equal++) { \
            try_exchange(size, equal, exchange_##size); \
            try_exchange(size, equal, exchange_of); \
        } \
    }

SIZE(1)
SIZE(2)
SIZE(4)

// The functions that are told a size.
static void try_given_size(uint32_t size)
{
    NAMED(void, __atomic_load, (uint32_t, void *, void *, int));
    NAMED(void, __atomic_store, (uint32_t, void *, void *, int));
    NAMED(void, __atomic_exchange, (uint32_t, void *, void *, void *, int));
    NAMED(bool, __atomic_is_lock_free, (uint32_t, void *));
    uint32_t offset = begin(size), old = value_of(area + offset, size), given = draw();
    uint8_t own[BYTES] = { 0 };
    called___atomic_load(size, area + offset, own + 1, SEQUENTIAL);
    need(value_of(own + 1, size) == old && own[0] == 0 && own[size + 1] == 0);
    end(size, offset, old);

    set_value(own + 1, size, given);
    called___atomic_store(size, area + offset, own + 1, SEQUENTIAL);
    end(size, offset, given);

    set_value(own + 1, size, given + 1);
    called___atomic_exchange(size, area + offset, own + 1, own + 2, SEQUENTIAL);
    need(value_of(own + 2, size) == cut(size, given));
    end(size, offset, given + 1);
    need(called___atomic_is_lock_free(size, area) && called___atomic_is_lock_free(size, NULL));
}

static void try_flag(void)
{
    NAMED(bool, __atomic_test_and_set, (void *, int));
    NAMED(void, __atomic_clear, (void *, int));
    NAMED(bool, __atomic_is_lock_free, (uint32_t, void *));
    NAMED(void, __sync_synchronize, (void));
    uint32_t offset = begin(1);
    area[offset] = 0;
    need(!called___atomic_test_and_set(area + offset, SEQUENTIAL));
    end(1, offset, 1);
    need(called___atomic_test_and_set(area + offset, SEQUENTIAL));
    end(1, offset, 1);
    called___atomic_clear(area + offset, SEQUENTIAL);
    end(1, offset, 0);
    called___sync_synchronize();
    need(!called___atomic_is_lock_free(8, NULL) && !called___atomic_is_lock_free(3, area));
    need(!called___atomic_is_lock_free(2, area + 1) && !called___atomic_is_lock_free(0, area));
}

int main(void)
{
    for (int round = 0; round < ROUNDS; round++) {
        tried = 0;
        try_size_1();
        try_size_2();
        try_size_4();
        for (uint32_t size = 1; size <= 4; size *= 2)
            try_given_size(size);
        try_flag();
    }
    return 0;
}
