// The machine of step.h that decodes each word of code once: what it says is kept as an entry of eight bytes, beside those
// of its page, when it is first executed, and a step is one jump on the entry's op. The rules are those of step.h, and so
// are the accesses. A word of which a byte may be written is kept as no entry: it is decoded each time, by the step of step.h.
#ifndef ONCE_H
#define ONCE_H

#include "step.h"

// What an entry says: nothing yet; to decode the word each time; that the page ends; or an instruction. A NEAR jump has for
// its immediate how many entries it goes on, a FAR one how many bytes. What is written to x0 goes to a register behind x31.
enum { WORDS = PAGE / 4, NO_REGISTER = 32 };
#define OPS(X) \
    X(FRESH) X(EACH_TIME) X(END) X(FENCE) X(LUI) X(AUIPC) X(JALR) X(JAL_NEAR) X(JAL_FAR) \
    X(BEQ_NEAR) X(BNE_NEAR) X(BLT_NEAR) X(BGE_NEAR) X(BLTU_NEAR) X(BGEU_NEAR) \
    X(BEQ_FAR) X(BNE_FAR) X(BLT_FAR) X(BGE_FAR) X(BLTU_FAR) X(BGEU_FAR) \
    X(LB) X(LH) X(LW) X(LBU) X(LHU) X(SB) X(SH) X(SW) \
    X(ADDI) X(SLLI) X(SLTI) X(SLTIU) X(XORI) X(SRLI) X(SRAI) X(ORI) X(ANDI) \
    X(ADD) X(SUB) X(SLL) X(SLT) X(SLTU) X(XOR) X(SRL) X(SRA) X(OR) X(AND) \
    X(MUL) X(MULH) X(MULHSU) X(MULHU) X(DIV) X(DIVU) X(REM) X(REMU)
#define NAME(op) OP_##op,
enum Op { OPS(NAME) OPS_COUNT };
#undef NAME

// A jump by so many bytes from a place of a page: near where it leads to a word of the page.
static void decode_jump(Entry *entry, uint32_t at, uint32_t offset, enum Op near, enum Op far) {
    uint32_t target = 4 * at + offset;
    bool is_near = target % 4 == 0 && target < PAGE;
    entry->op = is_near ? near : far;
    entry->immediate = is_near ? target / 4 - at : offset;
}

static enum Op decode_immediate(uint32_t word) {
    static const uint8_t ops[] = {OP_ADDI, OP_SLLI, OP_SLTI, OP_SLTIU, OP_XORI, OP_SRLI, OP_ORI, OP_ANDI};
    if (FUNCT3 == 5 && FUNCT7 == 0x20)
        return OP_SRAI;
    return FUNCT3 % 4 == 1 && FUNCT7 ? OP_FRESH : ops[FUNCT3];
}

static enum Op decode_registers(uint32_t word) {
    static const uint8_t ops[] = {OP_ADD, OP_SLL, OP_SLT, OP_SLTU, OP_XOR, OP_SRL, OP_OR, OP_AND};
    switch (FUNCT7) {
    case 0: return ops[FUNCT3];
    case 1: return OP_MUL + FUNCT3;
    case 0x20: return FUNCT3 == 0 ? OP_SUB : FUNCT3 == 5 ? OP_SRA : OP_FRESH;
    default: return OP_FRESH;
    }
}

// The entry of a word at a place of its page; it says nothing where the word is an ECALL or no instruction.
static Entry decode(uint32_t word, uint32_t at) {
    static const uint8_t loads[] = {OP_LB, OP_LH, OP_LW, OP_FRESH, OP_LBU, OP_LHU, OP_FRESH, OP_FRESH};
    static const uint8_t stores[] = {OP_SB, OP_SH, OP_SW, OP_FRESH, OP_FRESH, OP_FRESH, OP_FRESH, OP_FRESH};
    static const uint8_t branches[] = {OP_BEQ_NEAR, OP_BNE_NEAR, OP_FRESH, OP_FRESH, OP_BLT_NEAR, OP_BGE_NEAR, OP_BLTU_NEAR, OP_BGEU_NEAR};
    Entry entry = {OP_FRESH, RD ? RD : NO_REGISTER, word >> 15 & 31, word >> 20 & 31, I_FORM};
    switch (word & 0x7F) {
    case 0x37: entry.op = OP_LUI, entry.immediate = word & 0xFFFFF000; break;
    case 0x17: entry.op = OP_AUIPC, entry.immediate = word & 0xFFFFF000; break;
    case 0x6F: decode_jump(&entry, at, J_FORM, OP_JAL_NEAR, OP_JAL_FAR); break;
    case 0x67: entry.op = FUNCT3 ? OP_FRESH : OP_JALR; break;
    case 0x63:
        if (branches[FUNCT3])
            decode_jump(&entry, at, B_FORM, branches[FUNCT3], branches[FUNCT3] + (OP_BEQ_FAR - OP_BEQ_NEAR));
        break;
    case 0x03: entry.op = loads[FUNCT3]; break;
    case 0x23: entry.op = stores[FUNCT3], entry.immediate = S_FORM; break;
    case 0x13:
        entry.op = decode_immediate(word);
        if (FUNCT3 % 4 == 1)
            entry.immediate = SHAMT;
        break;
    case 0x33: entry.op = decode_registers(word); break;
    case 0x0F: entry.op = FUNCT3 ? OP_FRESH : OP_FENCE; break;
    }
    return entry;
}

static bool may_be_written(const Regions *regions, uint32_t address) {
    for (uint32_t k = 0; k < 4; k++)
        if (permits_byte(regions, address + k, WRITE))
            return true;
    return false;
}

// The entries of a page, and one behind them.
static Entry *entries_of(Memory *memory, uint32_t page) {
    if (!memory->entries[page]) {
        memory->entries[page] = calloc(WORDS + 1, sizeof(Entry));
        memory->entries[page][WORDS].op = OP_END;
    }
    return memory->entries[page];
}

// Learns what the word at an aligned pc says, unless it stops.
static __attribute__((noinline, cold)) enum Did learn(Memory *memory, const Regions *regions, const Calls *calls, uint32_t pc, Entry *entry) {
    Stretch code;
    enum Did did = code_at(memory, regions, calls, pc, &code);
    if (did)
        return did;
    uint32_t word = load(code.bytes + (pc - code.from), 4);
    *entry = decode(word, pc / 4 % WORDS);
    if (may_be_written(regions, pc))
        entry->op = OP_EACH_TIME;
    else if (entry->op == OP_FRESH)
        return word == 0x73 ? CALL : TRAP;
    return DID;
}

#define D x[entry->rd]
#define S x[entry->rs1]
#define T x[entry->rs2]
#define IMMEDIATE entry->immediate
#define PC (first + 4 * (uint32_t)(entry - entries))
#define GO goto *labels[entry->op]
#define STEP_TO(to) do { entry = (to); if (!--left) goto limit; GO; } while (0)
#define STEP STEP_TO(entry + 1)
#define LEAVE_TO(to) do { pc = (to); if (!--left) goto limit_there; goto enter; } while (0)
#define BRANCH(name, taken) \
    name##_NEAR: if (taken) STEP_TO(entry + (int32_t)IMMEDIATE); STEP; \
    name##_FAR: if (!(taken)) STEP; FAR(PC + IMMEDIATE)
#define FAR(to) do { target = (to); if (target % 4) STOP_HERE(TRAP); LEAVE_TO(target); } while (0)
#define STOP_HERE(why) do { did = (why); goto here; } while (0)
#define ACCESS(size, kind) do { if ((did = find(memory, regions, S + IMMEDIATE, size, kind, &at))) goto here; } while (0)
#define LOAD(size, value) do { ACCESS(size, READ); uint32_t loaded = load(at, size); D = (value); STEP; } while (0)
#define STORE(size) do { ACCESS(size, WRITE); memcpy(at, &T, size); STEP; } while (0)
#define RESULT(value) do { D = (value); STEP; } while (0)
#define LABEL(op) &&op,

// Steps as run does, with the same answers and the same count.
static __attribute__((noinline)) enum Did run_once_decoded(Cpu *cpu, Memory *memory, const Regions *regions, const Calls *calls, uint64_t most, uint64_t *count) {
    static const void *const labels[] = {OPS(LABEL)};
    uint32_t x[NO_REGISTER + 1], pc = cpu->pc, first, target;
    uint64_t left = most;
    Entry *entries, *entry;
    uint8_t *at;
    enum Did did;
    memcpy(x, cpu->x, sizeof cpu->x);
    if (!left)
        goto limit_there;
enter:
    if (pc % 4) {
        did = TRAP;
        goto stop;
    }
    first = pc & -(uint32_t)PAGE;
    entries = entries_of(memory, pc / PAGE);
    entry = entries + pc / 4 % WORDS;
    GO;
FRESH:
    if ((did = learn(memory, regions, calls, PC, entry)))
        goto here;
    GO;
EACH_TIME:
    memcpy(cpu->x, x, sizeof cpu->x), cpu->pc = PC;
    did = run(cpu, memory, regions, calls, 1, count);
    memcpy(x, cpu->x, sizeof cpu->x), pc = cpu->pc;
    if (did != LIMIT)
        goto stop;
    most--, left--; // counted there
    if (!left)
        goto limit_there;
    goto enter;
END: pc = PC; goto enter;
FENCE: STEP;
LUI: RESULT(IMMEDIATE);
AUIPC: RESULT(PC + IMMEDIATE);
JAL_NEAR: D = PC + 4; STEP_TO(entry + (int32_t)IMMEDIATE);
JAL_FAR: target = PC + IMMEDIATE; goto jump;
JALR: target = (S + IMMEDIATE) & ~1u; goto jump;
jump:
    if (target % 4)
        STOP_HERE(TRAP);
    D = PC + 4;
    if (target - first < PAGE)
        STEP_TO(entries + target / 4 % WORDS);
    LEAVE_TO(target);
BRANCH(BEQ, S == T);
BRANCH(BNE, S != T);
BRANCH(BLT, (int32_t)S < (int32_t)T);
BRANCH(BGE, (int32_t)S >= (int32_t)T);
BRANCH(BLTU, S < T);
BRANCH(BGEU, S >= T);
LB: LOAD(1, (int8_t)loaded);
LH: LOAD(2, (int16_t)loaded);
LW: LOAD(4, loaded);
LBU: LOAD(1, loaded);
LHU: LOAD(2, loaded);
SB: STORE(1);
SH: STORE(2);
SW: STORE(4);
ADDI: RESULT(S + IMMEDIATE);
SLLI: RESULT(S << IMMEDIATE);
SLTI: RESULT((int32_t)S < (int32_t)IMMEDIATE);
SLTIU: RESULT(S < IMMEDIATE);
XORI: RESULT(S ^ IMMEDIATE);
SRLI: RESULT(S >> IMMEDIATE);
SRAI: RESULT((int32_t)S >> IMMEDIATE);
ORI: RESULT(S | IMMEDIATE);
ANDI: RESULT(S & IMMEDIATE);
ADD: RESULT(S + T);
SUB: RESULT(S - T);
SLL: RESULT(S << (T & 31));
SLT: RESULT((int32_t)S < (int32_t)T);
SLTU: RESULT(S < T);
XOR: RESULT(S ^ T);
SRL: RESULT(S >> (T & 31));
SRA: RESULT((int32_t)S >> (T & 31));
OR: RESULT(S | T);
AND: RESULT(S & T);
MUL: RESULT(S * T);
MULH: RESULT(mulh(S, T));
MULHSU: RESULT(mulhsu(S, T));
MULHU: RESULT(mulhu(S, T));
DIV: RESULT(quotient(S, T));
DIVU: RESULT(!T ? ~0u : S / T);
REM: RESULT(remainder_of(S, T));
REMU: RESULT(!T ? S : S % T);
limit: pc = PC;
limit_there: did = LIMIT; goto stop;
here: pc = PC;
stop:
    memcpy(cpu->x, x, sizeof cpu->x);
    cpu->pc = pc;
    *count += most - left;
    return did;
}

#endif
