// A machine of RV32IM in plain C, as quick as a plain interpreter is: it decodes each word anew, keeps a stretch of code
// that may be executed and has no call in it while the pc stays there, and checks the permission of each access by the
// window of its page, with the exact test of each byte behind it. A page is kept as bytes. once.h decodes each word once.
#ifndef STEP_H
#define STEP_H

#include <stdbool.h>
#include <stdint.h>
#include <stdlib.h>
#include <string.h>

// An executable has at most 32 segments; the heap and sixteen stacks come on top.
enum { PAGES = 1 << 20, PAGE = 4096, SEGMENTS = 32, STACKS = 16, RANGES = SEGMENTS + 1 + STACKS, NAMES = 9 };
enum { HEAP_SIZE = 0x100000, STACKS_START = 0x70000000, STACK_STEP = 0x20000, STACK_SIZE = 0x10000, RETURNS_TO = 0x7FFFFFF0 };
enum Kind { READ, WRITE, EXECUTE, KINDS };
enum Did { DID, CALL, TRAP, PAGE_FAULT, LIMIT };

typedef struct { uint32_t x[32]; uint32_t pc; } Cpu;
typedef struct { uint32_t start, length; bool allows[KINDS]; } Range;
typedef struct { uint16_t from, to; } Window;
typedef struct { Range ranges[RANGES]; Window *windows[KINDS]; } Regions;
typedef struct { uint32_t addresses[NAMES]; uint64_t filter; } Calls;
// What is known of a page for accesses of one kind: its bytes, and the window of those that are permitted; at first none.
typedef struct { uint8_t *bytes; Window window; } Place;
// What a word of code says, by once.h.
typedef struct { uint8_t op, rd, rs1, rs2; uint32_t immediate; } Entry;
typedef struct { uint8_t **table; Place *places[KINDS]; Entry **entries; } Memory;

static bool permits_byte(const Regions *regions, uint64_t address, enum Kind kind) {
    for (int i = 0; i < RANGES; i++) {
        const Range *range = &regions->ranges[i];
        if (range->allows[kind] && range->start <= address && address < (uint64_t)range->start + range->length)
            return true;
    }
    return false;
}

static __attribute__((noinline, cold)) bool permits_each(const Regions *regions, uint32_t address, uint32_t length, enum Kind kind) {
    for (uint32_t k = 0; k < length; k++)
        if ((uint64_t)address + k >> 32 || !permits_byte(regions, address + k, kind))
            return false;
    return true;
}

static inline bool permits(const Regions *regions, uint32_t address, uint32_t length, enum Kind kind) {
    Window window = regions->windows[kind][address / PAGE];
    uint32_t offset = address % PAGE;
    return (window.from <= offset && offset + length <= window.to) || permits_each(regions, address, length, kind);
}

static bool is_call(const Calls *calls, uint32_t pc) {
    if (!(calls->filter >> (pc / 4 % 64) & 1))
        return false;
    for (int i = 0; i < NAMES; i++)
        if (calls->addresses[i] == pc)
            return true;
    return false;
}

static inline uint32_t load(const uint8_t *at, uint32_t size) {
    uint32_t value = 0;
    memcpy(&value, at, size);
    return value;
}

// The bytes of an access that its page's place doesn't show: tests each of them, and shows the page from then on.
static __attribute__((noinline, cold)) enum Did look(Memory *memory, const Regions *regions, uint32_t address, uint32_t size, enum Kind kind, uint8_t **at) {
    if (address % size || !permits(regions, address, size, kind))
        return TRAP;
    uint32_t number = address / PAGE;
    uint8_t *page = memory->table[number];
    if (!page)
        return PAGE_FAULT;
    memory->places[kind][number] = (Place){page, regions->windows[kind][number]};
    *at = page + address % PAGE;
    return DID;
}

static inline enum Did find(Memory *memory, const Regions *regions, uint32_t address, uint32_t size, enum Kind kind, uint8_t **at) {
    const Place *place = &memory->places[kind][address / PAGE];
    uint32_t offset = address % PAGE;
    if (address % size || offset < place->window.from || offset + size > place->window.to)
        return look(memory, regions, address, size, kind, at);
    *at = place->bytes + offset;
    return DID;
}

// Words of one page of code in a row that may be executed and are no call's, round a place; none where that isn't so.
typedef struct { const uint8_t *bytes; uint32_t from, size; } Stretch;

static __attribute__((noinline, cold)) enum Did code_at(Memory *memory, const Regions *regions, const Calls *calls, uint32_t pc, Stretch *stretch) {
    if (pc % 4)
        return TRAP;
    if (pc == RETURNS_TO || is_call(calls, pc))
        return CALL;
    uint8_t *at;
    enum Did did = look(memory, regions, pc, 4, EXECUTE, &at);
    if (did)
        return did;
    uint32_t first = pc & -(uint32_t)PAGE;
    Window window = regions->windows[EXECUTE][pc / PAGE];
    *stretch = (Stretch){at, pc, 4};
    while (stretch->from - 4 >= first + window.from && stretch->from > first && !is_call(calls, stretch->from - 4))
        stretch->from -= 4, stretch->bytes -= 4, stretch->size += 4;
    while (stretch->from - first + stretch->size + 4 <= window.to && !is_call(calls, stretch->from + stretch->size))
        stretch->size += 4;
    return DID;
}

static inline uint32_t mulh(uint32_t a, uint32_t b) { return (int64_t)(int32_t)a * (int32_t)b >> 32; }

static inline uint32_t mulhsu(uint32_t a, uint32_t b) { return (int64_t)(int32_t)a * (int64_t)b >> 32; }

static inline uint32_t mulhu(uint32_t a, uint32_t b) { return (uint64_t)a * b >> 32; }

static inline uint32_t quotient(uint32_t a, uint32_t b) {
    return !b ? ~0u : a == 0x80000000 && b == ~0u ? a : (uint32_t)((int32_t)a / (int32_t)b);
}

static inline uint32_t remainder_of(uint32_t a, uint32_t b) {
    return !b ? a : a == 0x80000000 && b == ~0u ? 0 : (uint32_t)((int32_t)a % (int32_t)b);
}

#define RD (word >> 7 & 31)
#define FUNCT3 (word >> 12 & 7)
#define FUNCT7 (word >> 25)
#define A x[word >> 15 & 31]
#define B x[word >> 20 & 31]
#define SHAMT (word >> 20 & 31)
#define I_FORM ((uint32_t)((int32_t)word >> 20))
#define S_FORM (((uint32_t)((int32_t)word >> 20) & ~31u) | RD)
#define B_FORM (((uint32_t)((int32_t)word >> 19) & 0xFFFFF000) | (word << 4 & 0x800) | (word >> 20 & 0x7E0) | (word >> 7 & 0x1E))
#define J_FORM (((uint32_t)((int32_t)word >> 11) & 0xFFF00000) | (word & 0xFF000) | (word >> 9 & 0x800) | (word >> 20 & 0x7FE))
#define FIND(size, kind, address) do { if ((did = find(memory, regions, address, size, kind, &at))) goto stop; } while (0)
#define STOP(why) do { did = (why); goto stop; } while (0)

// Steps until one stops or so many are done, adds to the count how many were, and answers what it was that stopped. Each
// word is decoded anew, by one jump on its opcode and one on what tells its instruction.
static __attribute__((noinline)) enum Did run(Cpu *cpu, Memory *memory, const Regions *regions, const Calls *calls, uint64_t most, uint64_t *count) {
    uint32_t *x = cpu->x, pc = cpu->pc;
    Stretch code = {0};
    uint64_t left = most;
    uint8_t *at;
    enum Did did;
    for (;; left--) {
        if (!left)
            STOP(LIMIT);
        if (pc - code.from >= code.size && (did = code_at(memory, regions, calls, pc, &code)))
            goto stop;
        uint32_t word = load(code.bytes + (pc - code.from), 4), next = pc + 4, target;
        if ((word & 3) != 3)
            STOP(TRAP);
        switch (word >> 2 & 31) {
        case 0x37 >> 2: x[RD] = word & 0xFFFFF000; break;
        case 0x17 >> 2: x[RD] = pc + (word & 0xFFFFF000); break;
        case 0x6F >> 2:
            target = pc + J_FORM;
            if (target % 4)
                STOP(TRAP);
            x[RD] = next, next = target;
            break;
        case 0x67 >> 2:
            target = (A + I_FORM) & ~1u;
            if (FUNCT3 || target % 4)
                STOP(TRAP);
            x[RD] = next, next = target;
            break;
        case 0x63 >> 2: {
            bool taken;
            switch (FUNCT3) {
            case 0: taken = A == B; break;
            case 1: taken = A != B; break;
            case 4: taken = (int32_t)A < (int32_t)B; break;
            case 5: taken = (int32_t)A >= (int32_t)B; break;
            case 6: taken = A < B; break;
            case 7: taken = A >= B; break;
            default: STOP(TRAP);
            }
            if (taken) {
                next = pc + B_FORM;
                if (next % 4)
                    STOP(TRAP);
            }
            break;
        }
        case 0x03 >> 2:
            switch (FUNCT3) {
            case 0: FIND(1, READ, A + I_FORM); x[RD] = (int8_t)load(at, 1); break;
            case 1: FIND(2, READ, A + I_FORM); x[RD] = (int16_t)load(at, 2); break;
            case 2: FIND(4, READ, A + I_FORM); x[RD] = load(at, 4); break;
            case 4: FIND(1, READ, A + I_FORM); x[RD] = load(at, 1); break;
            case 5: FIND(2, READ, A + I_FORM); x[RD] = load(at, 2); break;
            default: STOP(TRAP);
            }
            break;
        case 0x23 >> 2:
            switch (FUNCT3) {
            case 0: FIND(1, WRITE, A + S_FORM); memcpy(at, &B, 1); break;
            case 1: FIND(2, WRITE, A + S_FORM); memcpy(at, &B, 2); break;
            case 2: FIND(4, WRITE, A + S_FORM); memcpy(at, &B, 4); break;
            default: STOP(TRAP);
            }
            break;
        case 0x13 >> 2:
            switch (FUNCT3) {
            case 0: x[RD] = A + I_FORM; break;
            case 1: if (FUNCT7) STOP(TRAP); x[RD] = A << SHAMT; break;
            case 2: x[RD] = (int32_t)A < (int32_t)I_FORM; break;
            case 3: x[RD] = A < I_FORM; break;
            case 4: x[RD] = A ^ I_FORM; break;
            case 5:
                if (FUNCT7 == 0) x[RD] = A >> SHAMT;
                else if (FUNCT7 == 0x20) x[RD] = (int32_t)A >> SHAMT;
                else STOP(TRAP);
                break;
            case 6: x[RD] = A | I_FORM; break;
            default: x[RD] = A & I_FORM;
            }
            break;
        case 0x33 >> 2:
            switch (FUNCT7 << 3 | FUNCT3) {
            case 0: x[RD] = A + B; break;
            case 1: x[RD] = A << (B & 31); break;
            case 2: x[RD] = (int32_t)A < (int32_t)B; break;
            case 3: x[RD] = A < B; break;
            case 4: x[RD] = A ^ B; break;
            case 5: x[RD] = A >> (B & 31); break;
            case 6: x[RD] = A | B; break;
            case 7: x[RD] = A & B; break;
            case 8: x[RD] = A * B; break;
            case 9: x[RD] = mulh(A, B); break;
            case 10: x[RD] = mulhsu(A, B); break;
            case 11: x[RD] = mulhu(A, B); break;
            case 12: x[RD] = quotient(A, B); break;
            case 13: x[RD] = !B ? ~0u : A / B; break;
            case 14: x[RD] = remainder_of(A, B); break;
            case 15: x[RD] = !B ? A : A % B; break;
            case 0x20 << 3: x[RD] = A - B; break;
            case 0x20 << 3 | 5: x[RD] = (int32_t)A >> (B & 31); break;
            default: STOP(TRAP);
            }
            break;
        case 0x0F >> 2:
            if (FUNCT3)
                STOP(TRAP);
            break;
        default:
            STOP(word == 0x73 ? CALL : TRAP);
        }
        x[0] = 0;
        pc = next;
    }
stop:
    cpu->pc = pc;
    *count += most - left;
    return did;
}

// A memory with no page.
static Memory new_memory(void) {
    Memory memory = {calloc(PAGES, sizeof(uint8_t *)), {0}, calloc(PAGES, sizeof(Entry *))};
    for (int kind = 0; kind < KINDS; kind++)
        memory.places[kind] = calloc(PAGES, sizeof(Place));
    return memory;
}

static inline uint32_t smaller(uint32_t a, uint32_t b) { return a < b ? a : b; }

static inline uint32_t larger(uint32_t a, uint32_t b) { return a < b ? b : a; }

// Both windows where they touch, and else the larger one.
static Window joined(Window a, Window b) {
    if (a.from <= b.to && b.from <= a.to)
        return (Window){smaller(a.from, b.from), larger(a.to, b.to)};
    return b.to - b.from <= a.to - a.from ? a : b;
}

// Opens the windows of the pages of one range.
static void open_windows(Window *windows, const Range *range) {
    uint64_t start = range->start, end = start + range->length;
    for (uint64_t page = start / PAGE; page * PAGE < end; page++) {
        uint64_t first = page * PAGE;
        Window part = {start > first ? start - first : 0, end - first < PAGE ? end - first : PAGE};
        windows[page] = joined(windows[page], part);
    }
}

// The windows of all ranges.
static void make_windows(Regions *regions) {
    for (int kind = 0; kind < KINDS; kind++) {
        regions->windows[kind] = calloc(PAGES, sizeof(Window));
        for (int i = 0; i < RANGES; i++)
            if (regions->ranges[i].allows[kind])
                open_windows(regions->windows[kind], &regions->ranges[i]);
    }
}

// The heap from an address on, and the sixteen stacks, as ranges from a place in the list on.
static void add_heap_and_stacks(Regions *regions, int place, uint32_t heap) {
    regions->ranges[place] = (Range){heap, HEAP_SIZE, {1, 1, 0}};
    for (int i = 0; i < STACKS; i++)
        regions->ranges[place + 1 + i] = (Range){STACKS_START + i * STACK_STEP, STACK_SIZE, {1, 1, 0}};
}

// Makes an address one of the calls.
static void add_call(Calls *calls, int place, uint32_t address) {
    calls->addresses[place] = address;
    calls->filter |= (uint64_t)1 << (address / 4 % 64);
}

#endif
