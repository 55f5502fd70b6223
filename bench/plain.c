// Runs an executable of RV32IM alone: several passes one after another, each from a fresh state.
//
//     plain EXE INPUT PASSES          # by the step of step.h, which decodes each word anew
//     plain EXE INPUT PASSES once     # by that of once.h
//
// Standard output gets what the last pass wrote, and the status is that of its exit. Standard error gets one line: the
// instructions of one pass, its calls, and the nanoseconds of all passes, each from its first instruction to its exit. The
// system calls are those of docs/GUESTS.md. There is one thread: a call of a function of POSIX threads fails, and so does
// a trap.
#include "once.h"
#include <elf.h>
#include <inttypes.h>
#include <stdio.h>
#include <time.h>

enum { READ_CALL = 63, WRITE_CALL = 64, EXIT_CALL = 93, EXIT_GROUP_CALL = 94, BRK_CALL = 214 };
enum { EBADF = 9, EFAULT = 14, ENOSYS = 38, MOST_BYTES = 4096, A0 = 10, A1 = 11, A2 = 12, A7 = 17, SP = 2 };

static const char *const NAMES_OF_CALLS[NAMES] = {"pthread_create", "pthread_join", "pthread_exit", "pthread_self",
    "pthread_mutex_init", "pthread_mutex_destroy", "pthread_mutex_lock", "pthread_mutex_trylock", "pthread_mutex_unlock"};

typedef struct { uint8_t *bytes; size_t length; } Bytes;

typedef enum Did Run(Cpu *, Memory *, const Regions *, const Calls *, uint64_t, uint64_t *);

typedef struct {
    Cpu cpu;
    Memory memory;
    Regions regions;
    Calls calls;
    uint32_t heap, heap_end;
    Bytes input;
    size_t taken; // of the input
    FILE *output; // where what is written goes, if anywhere
    uint64_t instructions, served;
    bool ended;
    int status;
} Machine;

static _Noreturn void fail(const char *what) {
    fprintf(stderr, "plain: %s\n", what);
    exit(255);
}

static Bytes read_file(const char *name) {
    FILE *file = fopen(name, "rb");
    if (!file || fseek(file, 0, SEEK_END))
        fail(name);
    Bytes all = {NULL, ftell(file)};
    all.bytes = malloc(all.length + 1);
    rewind(file);
    if (fread(all.bytes, 1, all.length, file) != all.length)
        fail(name);
    fclose(file);
    return all;
}

// The bytes of a page, which is there from now on.
static uint8_t *back(Memory *memory, uint32_t page) {
    if (!memory->table[page])
        memory->table[page] = calloc(1, PAGE);
    return memory->table[page];
}

// How many of so many bytes lie in the page of an address.
static uint32_t within_page(uint32_t address, uint32_t length) {
    return smaller(length, PAGE - address % PAGE);
}

static void store_bytes(Memory *memory, uint32_t address, const uint8_t *bytes, uint32_t length) {
    while (length > 0) {
        uint32_t part = within_page(address, length);
        memcpy(back(memory, address / PAGE) + address % PAGE, bytes, part);
        address += part, bytes += part, length -= part;
    }
}

static void write_bytes(Memory *memory, uint32_t address, uint32_t length, FILE *output) {
    while (length > 0) {
        uint32_t part = within_page(address, length);
        fwrite(back(memory, address / PAGE) + address % PAGE, 1, part, output);
        address += part, length -= part;
    }
}

// The segments as ranges, their bytes in memory, and the heap behind them.
static void load_segments(Machine *machine, Bytes file) {
    const Elf32_Ehdr *header = (const Elf32_Ehdr *)file.bytes;
    const Elf32_Phdr *segments = (const Elf32_Phdr *)(file.bytes + header->e_phoff);
    uint32_t end = 0;
    int count = 0;
    for (int i = 0; i < header->e_phnum; i++) {
        const Elf32_Phdr *segment = &segments[i];
        if (segment->p_type != PT_LOAD || !segment->p_memsz)
            continue;
        uint32_t flags = segment->p_flags;
        Range range = {segment->p_vaddr, segment->p_memsz, {flags & PF_R, flags & PF_W, flags & PF_X}};
        machine->regions.ranges[count++] = range;
        store_bytes(&machine->memory, segment->p_vaddr, file.bytes + segment->p_offset, segment->p_filesz);
        end = larger(end, segment->p_vaddr + segment->p_memsz);
    }
    machine->heap = machine->heap_end = (end + PAGE - 1) / PAGE * PAGE;
    add_heap_and_stacks(&machine->regions, count, machine->heap);
    make_windows(&machine->regions);
}

// Adds a symbol's address where it is a function of POSIX threads.
static void add_symbol(Calls *calls, const Elf32_Sym *symbol, const char *names) {
    for (int i = 0; i < NAMES; i++)
        if (ELF32_ST_TYPE(symbol->st_info) == STT_FUNC && !strcmp(names + symbol->st_name, NAMES_OF_CALLS[i]))
            add_call(calls, i, symbol->st_value);
}

static void load_symbols(Machine *machine, Bytes file) {
    const Elf32_Ehdr *header = (const Elf32_Ehdr *)file.bytes;
    const Elf32_Shdr *sections = (const Elf32_Shdr *)(file.bytes + header->e_shoff);
    for (int i = 0; i < header->e_shnum; i++) {
        if (sections[i].sh_type != SHT_SYMTAB)
            continue;
        const Elf32_Sym *symbols = (const Elf32_Sym *)(file.bytes + sections[i].sh_offset);
        const char *names = (const char *)file.bytes + sections[sections[i].sh_link].sh_offset;
        for (uint32_t k = 0; k < sections[i].sh_size / sizeof *symbols; k++)
            add_symbol(&machine->calls, &symbols[k], names);
    }
}

static Machine *open_machine(Bytes file, Bytes input) {
    Machine *machine = calloc(1, sizeof *machine);
    machine->memory = new_memory();
    machine->input = input;
    load_segments(machine, file);
    load_symbols(machine, file);
    machine->cpu.pc = ((const Elf32_Ehdr *)file.bytes)->e_entry;
    machine->cpu.x[SP] = STACKS_START + STACK_SIZE - 16;
    return machine;
}

static void close_machine(Machine *machine) {
    for (uint32_t page = 0; page < PAGES; page++) {
        free(machine->memory.table[page]);
        free(machine->memory.entries[page]);
    }
    free(machine->memory.table);
    free(machine->memory.entries);
    for (int kind = 0; kind < KINDS; kind++) {
        free(machine->memory.places[kind]);
        free(machine->regions.windows[kind]);
    }
    free(machine);
}

static uint32_t serve_read(Machine *machine, uint32_t place, uint32_t length) {
    length = smaller(length, MOST_BYTES);
    if (machine->cpu.x[A0] != 0)
        return -EBADF;
    if (!permits(&machine->regions, place, length, WRITE))
        return -EFAULT;
    size_t left = machine->input.length - machine->taken;
    uint32_t got = length < left ? length : left;
    store_bytes(&machine->memory, place, machine->input.bytes + machine->taken, got);
    machine->taken += got;
    return got;
}

static uint32_t serve_write(Machine *machine, uint32_t place, uint32_t length) {
    length = smaller(length, MOST_BYTES);
    if (machine->cpu.x[A0] != 1 && machine->cpu.x[A0] != 2)
        return -EBADF;
    if (!permits(&machine->regions, place, length, READ))
        return -EFAULT;
    if (machine->output)
        write_bytes(&machine->memory, place, length, machine->output);
    return length;
}

static uint32_t serve_brk(Machine *machine, uint32_t wish) {
    if (machine->heap <= wish && wish <= machine->heap + HEAP_SIZE)
        machine->heap_end = wish;
    return machine->heap_end;
}

static void end(Machine *machine, int status) {
    machine->ended = true;
    machine->status = status;
}

// A system call; the return of the first thread from its start is the exit of the last thread.
static void serve(Machine *machine) {
    uint32_t *x = machine->cpu.x;
    machine->served++;
    if (machine->cpu.pc == RETURNS_TO) {
        end(machine, 0);
        return;
    }
    if (is_call(&machine->calls, machine->cpu.pc))
        fail("the executable calls a function of POSIX threads");
    switch (x[A7]) {
    case READ_CALL: x[A0] = serve_read(machine, x[A1], x[A2]); break;
    case WRITE_CALL: x[A0] = serve_write(machine, x[A1], x[A2]); break;
    case BRK_CALL: x[A0] = serve_brk(machine, x[A0]); break;
    case EXIT_CALL: case EXIT_GROUP_CALL: end(machine, x[A0] & 0xFF); break;
    default: x[A0] = -ENOSYS;
    }
    machine->cpu.pc += 4;
}

// The page, not there yet, that the instruction at the pc needs.
static uint32_t missing_page(const Machine *machine) {
    const uint8_t *code = machine->memory.table[machine->cpu.pc / PAGE];
    if (!code)
        return machine->cpu.pc / PAGE;
    uint32_t word = load(code + machine->cpu.pc % PAGE, 4);
    uint32_t offset = (int32_t)word >> 20;
    if ((word & 0x7F) == 0x23) // a store
        offset = (offset & ~31u) | (word >> 7 & 31);
    return (machine->cpu.x[word >> 15 & 31] + offset) / PAGE;
}

static void run_to_end(Machine *machine, Run *run) {
    while (!machine->ended) {
        switch (run(&machine->cpu, &machine->memory, &machine->regions, &machine->calls, UINT64_MAX, &machine->instructions)) {
        case CALL: serve(machine); break;
        case PAGE_FAULT: back(&machine->memory, missing_page(machine)); break;
        default: fail("a trap");
        }
    }
}

static int64_t now(void) {
    struct timespec time;
    clock_gettime(CLOCK_PROCESS_CPUTIME_ID, &time);
    return time.tv_sec * INT64_C(1000000000) + time.tv_nsec;
}

int main(int argc, char **argv) {
    bool once = argc == 5 && !strcmp(argv[4], "once");
    long passes = argc == 4 || once ? strtol(argv[3], NULL, 10) : 0;
    if (passes < 1)
        fail("plain EXE INPUT PASSES [once]");
    Bytes file = read_file(argv[1]), input = read_file(argv[2]);
    if (file.length < sizeof(Elf32_Ehdr) || memcmp(file.bytes, ELFMAG "\1\1", 6))
        fail("the executable isn't of ELF32");
    int64_t nanoseconds = 0;
    for (long pass = 1;; pass++) {
        Machine *machine = open_machine(file, input);
        machine->output = pass == passes ? stdout : NULL;
        int64_t start = now();
        run_to_end(machine, once ? run_once_decoded : run);
        nanoseconds += now() - start;
        if (pass == passes) {
            fprintf(stderr, "%" PRIu64 " %" PRIu64 " %" PRId64 "\n", machine->instructions, machine->served, nanoseconds);
            return machine->status;
        }
        close_machine(machine);
    }
}
