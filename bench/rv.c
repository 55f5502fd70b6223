// The loops of crates/ro_speed in plain C: rv LOOP TURNS by the step of step.h, and rv LOOP TURNS once by that of once.h.
#include "once.h"
#include <inttypes.h>
#include <stdio.h>
#include <time.h>

static const uint32_t MIX[] = {0x0002A383, 0x00740433, 0x0084C4B3, 0x00349513, 0x0092A223, 0xFFF30313, 0xFE0314E3, 0x00100073};
static const uint32_t STACK[] = {0xFF010113, 0x00612623, 0x00912423, 0x00137393, 0x00038463, 0x00348493, 0x00C12403,
    0x00812503, 0x01010113, 0x00856463, 0x008484B3, 0xFFF30313, 0xFC0318E3, 0x00100073};
static const uint32_t BYTES[] = {0x028303B3, 0x0283B4B3, 0x0FF4F513, 0x00A285B3, 0x0005C603, 0x00760633, 0x00C58023,
    0x00158683, 0x02769733, 0x00E40433, 0xFFF30313, 0xFC031AE3, 0x00100073};
static const uint32_t WIDE[] = {0x000125B7, 0x01F37393, 0x00C39393, 0x00B383B3, 0x0003A403, 0x006404B3, 0x0093A023, 0xFFF30313, 0xFE0310E3, 0x00100073};

int main(int argc, char **argv) {
    bool once = argc == 4 && !strcmp(argv[3], "once");
    if (argc != 3 && !once)
        return 2;
    const uint32_t *words = !strcmp(argv[1], "mix") ? MIX : !strcmp(argv[1], "stack") ? STACK : !strcmp(argv[1], "wide") ? WIDE : BYTES;
    size_t size = words == MIX ? sizeof MIX : words == STACK ? sizeof STACK : words == WIDE ? sizeof WIDE : sizeof BYTES;
    Memory memory = new_memory();
    memory.table[0x10] = calloc(1, PAGE);
    memory.table[0x11] = calloc(1, PAGE);
    memory.table[0x7000F] = calloc(1, PAGE);
    for (int page = 0x12; page < 0x32; page++)
        memory.table[page] = calloc(1, PAGE);
    memcpy(memory.table[0x10], words, size);
    Regions regions = {.ranges = {{0x10000, 0x420, {1, 0, 1}}, {0x11000, 0x7A4, {1, 1, 0}}}};
    add_heap_and_stacks(&regions, 2, 0x12000);
    make_windows(&regions);
    Calls calls = {0};
    for (int i = 0; i < NAMES; i++)
        add_call(&calls, i, 0x103A8 + i * 12);
    Cpu cpu = {.pc = 0x10000};
    cpu.x[2] = 0x7000FFF0, cpu.x[5] = 0x11000, cpu.x[6] = strtoul(argv[2], NULL, 10), cpu.x[8] = 1;
    uint64_t count = 0;
    struct timespec start, end;
    clock_gettime(CLOCK_MONOTONIC, &start);
    (once ? run_once_decoded : run)(&cpu, &memory, &regions, &calls, UINT64_MAX, &count);
    clock_gettime(CLOCK_MONOTONIC, &end);
    long long nanoseconds = (end.tv_sec - start.tv_sec) * 1000000000ll + (end.tv_nsec - start.tv_nsec);
    printf("%s %" PRIu64 " %" PRIu32 " %" PRIu32 " %lld\n", argv[1], count, cpu.x[8], cpu.x[9], nanoseconds);
}
