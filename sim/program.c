/*
 * Nivoplet: random programs for run cards; see program.h.
 *
 * A planned program keeps these registers for itself, so that it runs on
 * without a violation until it meets the event it was asked for.
 */
#include "program.h"
#include "isa.h"

#include <stddef.h>

enum {
    R_ZERO = 0,
    R_DATA = 1,                 /* start of the data region */
    R_POINTER = 2,              /* an address in the data region */
    R_SCRATCH_LOW = 3, R_SCRATCH_LOW_END = 9,
    R_LOOP = 10,                /* counters: main 10 to 12, callers 13 and 14, leaves 15 */
    R_BOUND = 16,
    R_CONDITION = 17,
    R_ADDRESS = 18,
    R_SAVE = 19,                /* link of a subroutine that calls */
    R_VALUE = 20,
    R_SCRATCH_HIGH = 21, R_SCRATCH_HIGH_END = 30
};

/* Who may loop how deep, by its place in the calls. */
enum level { LEVEL_MAIN, LEVEL_CALLER, LEVEL_LEAF };
static const unsigned first_counter[] = {R_LOOP, R_LOOP + 3, R_LOOP + 5};
static const unsigned end_counter[] = {R_LOOP + 3, R_LOOP + 5, R_LOOP + 6};

enum { MEMORY_WORDS = MEMORY_BYTES / WORD_BYTES };

/* ---- random numbers ------------------------------------------------------ */

uint32_t draw(struct draft *draft)
{
    /* splitmix64 */
    uint64_t z = draft->random += UINT64_C(0x9E3779B97F4A7C15);
    z = (z ^ z >> 30) * UINT64_C(0xBF58476D1CE4E5B9);
    z = (z ^ z >> 27) * UINT64_C(0x94D049BB133111EB);
    return (uint32_t)((z ^ z >> 31) >> 32);
}

uint32_t below(struct draft *draft, uint32_t bound)
{
    return (uint32_t)((uint64_t)draw(draft) * bound >> 32);
}

uint32_t between(struct draft *draft, uint32_t low, uint32_t high)
{
    return low + below(draft, high - low + 1);
}

int chance(struct draft *draft, unsigned percent)
{
    return below(draft, 100) < percent;
}

uint32_t value(struct draft *draft)
{
    static const uint32_t telling[] = {
        0, 1, 2, 3, 4, 0xFFFFFFFF, 0xFFFFFFFE, 0xFFFFFFFC, 0x7FFFFFFF, 0x7FFFFFFE,
        0x80000000, 0x80000001, 0x00007FFF, 0x00008000, 0xFFFF8000, 0xFFFF7FFF,
        0x0000FFFF, 0x00010000, 0x40000000, 0xC0000000, 16380, 16384, 64, 0xFFFFFFBF
    };
    uint32_t word = draw(draft);
    switch (below(draft, 6)) {
    case 0:
    case 1: return telling[below(draft, sizeof telling / sizeof telling[0])];
    case 2: return below(draft, 100);
    case 3: return word >> below(draft, 32);
    case 4: return draft->card.data_start + WORD_BYTES * below(draft, draft->card.data_words + 1);
    default: return word;
    }
}

/* ---- parts of a card ----------------------------------------------------- */

void draw_regions(struct draft *draft, uint32_t code_words, uint32_t data_words)
{
    struct card *card = &draft->card;
    uint32_t slack = MEMORY_WORDS - code_words - data_words;
    uint32_t before = below(draft, slack + 1);              /* gap before the lower region */
    uint32_t middle = below(draft, slack - before + 1);     /* gap between the two */

    switch (below(draft, 6)) {
    case 0: before = 0; middle = 0; break;                  /* at 0, adjacent */
    case 1: middle = slack - before; break;                 /* upper one ends the memory */
    case 2: before = slack; middle = 0; break;              /* adjacent, at the very end */
    case 3: middle = 0; break;                              /* adjacent, anywhere */
    default: break;
    }
    card->code_words = code_words;
    card->data_words = data_words;
    if (chance(draft, 50)) {
        card->code_start = WORD_BYTES * before;
        card->data_start = WORD_BYTES * (before + code_words + middle);
    } else {
        card->data_start = WORD_BYTES * before;
        card->code_start = WORD_BYTES * (before + data_words + middle);
    }
    if (data_words == 0)        /* its start may lie anywhere, the end included */
        card->data_start = chance(draft, 30) ? MEMORY_BYTES
                                             : WORD_BYTES * below(draft, MEMORY_WORDS + 1);
}

void draw_usual_regions(struct draft *draft)
{
    uint32_t code_words, data_words;
    switch (below(draft, 20)) {
    case 0: code_words = REGION_WORDS_MAX; break;
    case 1: code_words = between(draft, 2, 12); break;
    case 2: case 3: case 4: case 5: code_words = between(draft, 200, 600); break;
    default: code_words = between(draft, 24, 200); break;
    }
    switch (below(draft, 20)) {
    case 0: data_words = REGION_WORDS_MAX; break;
    case 1: data_words = 0; break;
    case 2: case 3: data_words = between(draft, 1, 3); break;
    case 4: case 5: data_words = between(draft, 100, 500); break;
    default: data_words = between(draft, 4, 64); break;
    }
    draw_regions(draft, code_words, data_words);
}

void draw_registers(struct draft *draft)
{
    struct registers *regs = &draft->card.regs;
    int rich = chance(draft, 80);
    for (unsigned i = 0; i < REGISTERS; i++) {
        regs->gpr[i] = rich ? value(draft) : 0;
        regs->spr[i] = i <= SPR_EMODE && chance(draft, 60) ? value(draft) : 0;
    }
    regs->gpr[R_ZERO] = 0;
    if (draft->keep_masked) {
        regs->spr[SPR_SR] &= ~(uint32_t)CAUSE_OVERFLOW;
        regs->spr[SPR_ESR] &= ~(uint32_t)CAUSE_OVERFLOW;
    } else {
        regs->spr[SPR_SR] |= CAUSE_OVERFLOW;
    }
    regs->dpc = draft->card.code_start;
    regs->pc = regs->dpc + WORD_BYTES;
}

void draw_data(struct draft *draft)
{
    unsigned zero_percent = chance(draft, 20) ? 90 : 10;
    for (uint32_t i = 0; i < draft->card.data_words; i++)
        put_word(draft->card.data + WORD_BYTES * i, chance(draft, zero_percent) ? 0 : value(draft));
}

uint32_t draw_limit(struct draft *draft)
{
    uint32_t dice = below(draft, 1000);
    if (dice < 30)
        return 0;
    if (dice < 60)
        return 1;
    if (dice < 260)
        return between(draft, 2, 50);
    if (dice < 860)
        return between(draft, 51, 2000);
    if (dice < 990)
        return between(draft, 2001, 20000);
    if (dice < 998)
        return between(draft, 20001, 400000);
    return dice == 998 ? STEP_LIMIT_MAX : between(draft, 400001, STEP_LIMIT_MAX);
}

/* ---- making words -------------------------------------------------------- */

static uint32_t made(const char *name, unsigned rd, unsigned rs1, unsigned rs2, unsigned sa, int32_t imm)
{
    struct fields fields = {rd, rs1, rs2, sa, imm};
    return make_word(instruction_named(name), fields);
}

static uint32_t three(const char *name, unsigned rd, unsigned rs1, unsigned rs2)
{
    return made(name, rd, rs1, rs2, 0, 0);
}

/* Also loads and stores: RD and RS1(imm). */
static uint32_t immediate(const char *name, unsigned rd, unsigned rs1, int32_t imm)
{
    return made(name, rd, rs1, 0, 0, imm);
}

static uint32_t branch(const char *name, unsigned rs1, int32_t imm)
{
    return made(name, 0, rs1, 0, 0, imm);
}

static uint32_t jump(const char *name, int32_t imm)
{
    return made(name, 0, 0, 0, 0, imm);
}

static uint32_t jump_register(const char *name, unsigned rs1)
{
    return made(name, 0, rs1, 0, 0, 0);
}

static uint32_t to_special(unsigned number, unsigned rs1)
{
    return made("movi2s", 0, rs1, 0, number, 0);
}

static const uint32_t nop = 0;

/* ---- writing code -------------------------------------------------------- */

static uint32_t room(const struct draft *draft)
{
    uint32_t taken = draft->at + draft->reserve;
    return taken < draft->card.code_words ? draft->card.code_words - taken : 0;
}

static void put_code(struct draft *draft, uint32_t index, uint32_t word)
{
    if (index < draft->card.code_words)
        put_word(draft->card.code + WORD_BYTES * index, word);
}

static void emit(struct draft *draft, uint32_t word)
{
    put_code(draft, draft->at, word);
    if (draft->at < draft->card.code_words)
        draft->at++;
}

static uint32_t address_of(const struct draft *draft, uint32_t index)
{
    return draft->card.code_start + WORD_BYTES * index;
}

/* What a branch, j or jal at one index needs to reach another. */
static int32_t distance(uint32_t from, uint32_t to)
{
    return WORD_BYTES * ((int32_t)to - (int32_t)from - 1);
}

static int fits_16(int64_t number)
{
    return number >= -32768 && number <= 32767;
}

/* Puts a constant in a register, in one or two words. */
static void emit_constant(struct draft *draft, unsigned reg, uint32_t constant)
{
    int32_t low = (int32_t)(constant & 0xFFFF);
    if (low >= 0x8000)
        low -= 0x10000;
    uint32_t high = (constant - (uint32_t)low) >> 16;
    int32_t signed_high = (int32_t)high >= 0x8000 ? (int32_t)high - 0x10000 : (int32_t)high;
    if (high == 0) {
        emit(draft, immediate("addi", reg, R_ZERO, low));
        return;
    }
    emit(draft, immediate("lhgi", reg, 0, signed_high));
    if (low != 0 && (low < 0 || chance(draft, 50)))
        emit(draft, immediate("addi", reg, reg, low));
    else if (low != 0)
        emit(draft, immediate(chance(draft, 50) ? "ori" : "xori", reg, reg, low));
}

/* ---- single words that never fail ---------------------------------------- */

static unsigned scratch(struct draft *draft)
{
    if (chance(draft, 50))
        return between(draft, R_SCRATCH_LOW, R_SCRATCH_LOW_END);
    unsigned reg = between(draft, R_SCRATCH_HIGH, R_SCRATCH_HIGH_END);
    return reg == draft->kept ? R_SCRATCH_LOW : reg;
}

static unsigned destination(struct draft *draft)
{
    return chance(draft, 6) ? R_ZERO : scratch(draft);
}

static unsigned source(struct draft *draft)
{
    return chance(draft, 70) ? scratch(draft) : below(draft, REGISTERS);
}

static int32_t any_imm16(struct draft *draft)
{
    static const int32_t telling[] = {0, 1, -1, 4, -4, 32767, -32768, 255, 256, -256};
    switch (below(draft, 4)) {
    case 0: return telling[below(draft, sizeof telling / sizeof telling[0])];
    case 1: return (int32_t)below(draft, 64) - 32;
    default: return (int32_t)below(draft, 65536) - 32768;
    }
}

/* Drawn one after the other, so that every compiler gives the same cards. */
static struct fields any_fields(struct draft *draft)
{
    struct fields fields;
    fields.rd = destination(draft);
    fields.rs1 = source(draft);
    fields.rs2 = source(draft);
    fields.sa = below(draft, 32);
    fields.imm = any_imm16(draft);
    return fields;
}

static uint32_t any_three(struct draft *draft, const char *name, unsigned rd)
{
    unsigned rs1 = source(draft);
    unsigned rs2 = source(draft);
    return three(name, rd, rs1, rs2);
}

static uint32_t access_size(const struct instruction *entry)
{
    switch (entry->opcode & 3) {        /* the low bits of the opcode tell the size */
    case 0: return 1;
    case 1: return 2;
    default: return 4;
    }
}

static int touches_code(const struct draft *draft, uint32_t address)
{
    uint32_t start = draft->card.code_start;
    return address >= start && address < start + WORD_BYTES * draft->card.code_words;
}

/* A load or store the program may do; a nop when there is no place for it. */
static uint32_t safe_access(struct draft *draft, const struct instruction *entry)
{
    uint32_t size = access_size(entry);
    uint32_t data_bytes = WORD_BYTES * draft->card.data_words;
    struct fields fields = {destination(draft), R_DATA, 0, 0, 0};

    if (entry->form == FORM_STORE)
        fields.rd = source(draft);
    if (draft->other_percent > 0 && (data_bytes == 0 || chance(draft, draft->other_percent / 3))) {
        /* anywhere in memory, but no store into the code */
        uint32_t address = size * below(draft, MEMORY_BYTES / size);
        if (entry->form == FORM_STORE && touches_code(draft, address))
            return nop;
        fields.rs1 = R_ZERO;
        fields.imm = (int32_t)address;
        return make_word(entry, fields);
    }
    if (data_bytes == 0)
        return nop;
    fields.imm = (int32_t)(size * below(draft, data_bytes / size));
    if (chance(draft, 25)) {
        fields.rs1 = R_ZERO;
        fields.imm += (int32_t)draft->card.data_start;
    }
    return make_word(entry, fields);
}

static uint32_t safe_to_special(struct draft *draft)
{
    unsigned number = chance(draft, 50) ? below(draft, SPR_EMODE + 1) : below(draft, REGISTERS);
    if (chance(draft, 10))
        number = SPR_MODE;
    int guarded = number == SPR_MODE ||
                  (draft->keep_masked && (number == SPR_SR || number == SPR_ESR));
    return to_special(number, guarded ? R_ZERO : source(draft));
}

static const struct instruction *any_instruction(struct draft *draft)
{
    int assembler = !chance(draft, draft->other_percent);
    for (;;) {
        const struct instruction *entry = &instruction_table[below(draft, INSTRUCTIONS)];
        if (entry->assembler == assembler)
            return entry;
    }
}

static uint32_t simple_word(struct draft *draft)
{
    for (;;) {
        const struct instruction *entry =
            chance(draft, 15) ? instruction_named(chance(draft, 50) ? "lw" : "sw")
                              : any_instruction(draft);
        struct fields fields = any_fields(draft);
        switch (entry->form) {
        case FORM_LOAD:
        case FORM_STORE:
            return safe_access(draft, entry);
        case FORM_TO_SPECIAL:
            return safe_to_special(draft);
        case FORM_BRANCH:
        case FORM_JUMP:
        case FORM_JUMP_REGISTER:
        case FORM_BARE:
            break;              /* not a single word */
        default:
            return make_word(entry, fields);
        }
    }
}

static void emit_slot(struct draft *draft)
{
    emit(draft, chance(draft, 25) ? nop : simple_word(draft));
}

/* A word that is skipped: anything. */
static uint32_t skipped_word(struct draft *draft)
{
    return chance(draft, 50) ? draw(draft) : simple_word(draft);
}

/* ---- memory through a pointer -------------------------------------------- */

static uint32_t power_below(uint32_t number)
{
    uint32_t power = 1;
    while (power * 2 <= number)
        power *= 2;
    return power;
}

static const struct instruction *any_access(struct draft *draft)
{
    static const char *const narrow[] = {"lb", "lh", "lbu", "lhu", "sb", "sh"};
    if (chance(draft, draft->other_percent))
        return instruction_named(narrow[below(draft, 6)]);
    return instruction_named(chance(draft, 50) ? "lw" : "sw");
}

/* The register moved through the pointer; at times the pointer itself. */
static unsigned pointed(struct draft *draft)
{
    return chance(draft, 10) ? R_POINTER : scratch(draft);
}

/* An index computed from a register, masked to the data. */
static void emit_indexed_access(struct draft *draft)
{
    const struct instruction *entry = any_access(draft);
    uint32_t size = access_size(entry);
    uint32_t cells = power_below(WORD_BYTES * draft->card.data_words / size);
    struct fields fields = {pointed(draft), R_POINTER, 0, 0, 0};

    emit(draft, immediate("andi", R_POINTER, source(draft), (int32_t)(cells - 1)));
    if (size > 1)
        emit(draft, made("slli", R_POINTER, R_POINTER, 0, size == 4 ? 2 : 1, 0));
    emit(draft, three("add", R_POINTER, R_POINTER, R_DATA));
    emit(draft, make_word(entry, fields));
}

/* A base past the cell, or far below zero so that the sum wraps. */
static void emit_offset_access(struct draft *draft)
{
    uint32_t cell = below(draft, draft->card.data_words);
    int32_t address = (int32_t)(draft->card.data_start + WORD_BYTES * cell);
    const char *name = chance(draft, 50) ? "lw" : "sw";
    if (chance(draft, 50)) {
        int32_t back = (int32_t)below(draft, 8192);
        emit(draft, immediate("addi", R_POINTER, R_ZERO, address + back));
        emit(draft, immediate(name, pointed(draft), R_POINTER, -back));
    } else {
        int32_t far = (int32_t)between(draft, 1, (uint32_t)(32767 - address));
        emit(draft, immediate("addi", R_POINTER, R_ZERO, -far));
        emit(draft, immediate(name, pointed(draft), R_POINTER, address + far));
    }
}

static void emit_pointer_access(struct draft *draft)
{
    if (draft->card.data_words == 0 || room(draft) < 4)
        return;
    if (chance(draft, 60))
        emit_indexed_access(draft);
    else
        emit_offset_access(draft);
}

/* Walks over the data, a word at a time, and changes it. */
static void emit_walk(struct draft *draft, unsigned counter)
{
    if (draft->card.data_words < 2 || room(draft) < 9)
        return;
    uint32_t cells = between(draft, 2, draft->card.data_words);
    unsigned reg = scratch(draft);
    unsigned sum = scratch(draft);
    emit(draft, immediate("addi", R_POINTER, R_DATA, 0));
    emit(draft, immediate("addi", counter, R_ZERO, (int32_t)cells));
    uint32_t top = draft->at;
    emit(draft, immediate("lw", reg, R_POINTER, 0));
    emit(draft, three(chance(draft, 50) ? "add" : "sub", sum, sum, reg));
    emit(draft, immediate("addi", counter, counter, -1));
    if (chance(draft, 80))
        emit(draft, immediate("sw", sum, R_POINTER, 0));
    emit(draft, branch("bnez", counter, distance(draft->at, top)));
    emit(draft, immediate("addi", R_POINTER, R_POINTER, WORD_BYTES));
}

/* ---- transfers ----------------------------------------------------------- */

/* A transfer that is always taken, by its immediate. */
static uint32_t sure_transfer(struct draft *draft, enum level level, int32_t imm)
{
    if (draft->other_percent > 0 && chance(draft, 30))
        return jump("j", imm);
    if (level == LEVEL_MAIN && chance(draft, 30))
        return jump("jal", imm);
    if (draft->card.data_start != 0 && chance(draft, 40))
        return branch("bnez", R_DATA, imm);
    return branch("beqz", R_ZERO, imm);
}

/* Transfers that follow transfers. Control goes on behind them. */
static void emit_transfer_in_slot(struct draft *draft, enum level level)
{
    uint32_t skip_first = below(draft, 3);
    uint32_t skip_second = below(draft, 3);
    int links = level == LEVEL_MAIN && chance(draft, draft->other_percent);
    if (room(draft) < 9)
        return;
    switch (below(draft, 4)) {
    case 0:                     /* some transfers to the word after the next */
        for (uint32_t i = between(draft, 2, 5); i > 0; i--)
            emit(draft, sure_transfer(draft, level, WORD_BYTES));
        emit_slot(draft);
        return;
    case 1:                     /* the second is not taken */
        emit(draft, sure_transfer(draft, level, (int32_t)(WORD_BYTES * (1 + skip_first))));
        emit(draft, branch("bnez", R_ZERO, any_imm16(draft)));
        skip_second = 0;
        break;
    case 2:                     /* the second goes by a register */
        emit(draft, immediate("addi", R_ADDRESS, R_ZERO,
                              (int32_t)address_of(draft, draft->at + 4 + skip_first + skip_second)));
        emit(draft, sure_transfer(draft, level, (int32_t)(WORD_BYTES * (1 + skip_first))));
        emit(draft, jump_register(links ? "jalr" : "jr", R_ADDRESS));
        break;
    default:                    /* the second starts from the first's target */
        emit(draft, sure_transfer(draft, level, (int32_t)(WORD_BYTES * (1 + skip_first))));
        emit(draft, sure_transfer(draft, level, (int32_t)(WORD_BYTES * (1 + skip_second))));
        break;
    }
    for (uint32_t i = 0; i < skip_first; i++)
        emit(draft, skipped_word(draft));
    emit_slot(draft);
    for (uint32_t i = 0; i < skip_second; i++)
        emit(draft, skipped_word(draft));
}

/* Returns by rfe, with the counters set right before. */
static void emit_return_from_exception(struct draft *draft)
{
    uint32_t skip = below(draft, 3);
    if (room(draft) < 9)
        return;
    uint32_t target = draft->at + 6 + skip;     /* behind the rfe and the skipped words */
    if (!draft->keep_masked && chance(draft, 30))
        emit(draft, to_special(SPR_ESR, source(draft)));
    else
        emit_slot(draft);
    emit(draft, immediate("addi", R_ADDRESS, R_ZERO, (int32_t)address_of(draft, target)));
    emit(draft, to_special(SPR_EDPC, R_ADDRESS));
    emit(draft, immediate("addi", R_ADDRESS, R_ADDRESS, WORD_BYTES));
    emit(draft, to_special(SPR_EPC, R_ADDRESS));
    emit(draft, jump("rfe", 0));
    for (uint32_t i = 0; i < skip; i++)
        emit(draft, skipped_word(draft));
}

/* Compares two numbers that are equal or next to each other. */
static void emit_near_comparison(struct draft *draft)
{
    static const char *const checked[] = {"sgr", "sge", "sne"};
    static const char *const others[] = {"seq", "sls", "sle", "sgri", "seqi", "sgei", "slsi", "snei", "slei"};
    const char *name = chance(draft, draft->other_percent) ? others[below(draft, 9)]
                                                           : checked[below(draft, 3)];
    int32_t left = (int32_t)below(draft, 65000) - 32500;
    int32_t right = left + (int32_t)below(draft, 3) - 1;
    if (room(draft) < 3)
        return;
    emit(draft, immediate("addi", R_VALUE, R_ZERO, left));
    if (instruction_named(name)->opcode == 0) {
        emit(draft, immediate("addi", R_CONDITION, R_ZERO, right));
        emit(draft, three(name, destination(draft), R_VALUE, R_CONDITION));
    } else {
        emit(draft, immediate(name, destination(draft), R_VALUE, right));
    }
}

/* A sum or difference near the ends of the signed numbers. */
static uint32_t overflow_word(struct draft *draft, unsigned rs1)
{
    static const char *const registers[] = {"addo", "subo"};
    static const char *const immediates[] = {"addio", "subio"};
    unsigned rd = destination(draft);
    uint32_t which = below(draft, 2);
    switch (below(draft, 5)) {
    case 0: return three("addo", rd, rs1, rs1);
    case 1: return three(registers[which], rd, rs1, source(draft));
    case 2: return three(registers[which], rd, source(draft), rs1);
    default: return immediate(immediates[which], rd, rs1, any_imm16(draft));
    }
}

/* Overflow while masked; the mask may have been open shortly before. */
static void emit_overflow(struct draft *draft)
{
    static const uint32_t ends[] = {0x7FFFFFFF, 0x80000000, 0x7FFF8000, 0x80007FFF,
                                    0x40000000, 0xC0000000, 0x7FFFFFFE, 0x80000001};
    if (room(draft) < 9 || (!draft->keep_masked && chance(draft, 70)))
        return;
    if (draft->keep_masked && chance(draft, 30)) {
        uint32_t mask = value(draft) | CAUSE_OVERFLOW;
        emit_constant(draft, R_VALUE, mask);
        emit(draft, to_special(SPR_SR, R_VALUE));
        emit(draft, immediate("addio", R_POINTER, R_ZERO, any_imm16(draft)));
        emit(draft, immediate("xori", R_VALUE, R_VALUE, CAUSE_OVERFLOW));
        emit(draft, to_special(SPR_SR, R_VALUE));
    }
    emit_constant(draft, R_VALUE, ends[below(draft, sizeof ends / sizeof ends[0])]);
    emit(draft, overflow_word(draft, R_VALUE));
}

/* The program writes a word of its own and runs it. */
static void emit_self_change(struct draft *draft)
{
    if (room(draft) < 7)
        return;
    if (chance(draft, 50)) {
        uint32_t gap = below(draft, 3);
        emit_constant(draft, R_VALUE, simple_word(draft));
        emit(draft, immediate("sw", R_VALUE, R_ZERO,
                              (int32_t)address_of(draft, draft->at + 1 + gap)));
        for (uint32_t i = 0; i < gap; i++)
            emit_slot(draft);
        emit(draft, nop);
    } else {                    /* counts up in the immediate of an addi */
        unsigned reg = scratch(draft);
        int half = chance(draft, 50);
        int32_t address = (int32_t)address_of(draft, draft->at + 3);
        emit(draft, immediate(half ? "lhu" : "lbu", R_VALUE, R_ZERO, address));
        emit(draft, immediate("addi", R_VALUE, R_VALUE, 1));
        emit(draft, immediate(half ? "sh" : "sb", R_VALUE, R_ZERO, address));
        emit(draft, immediate("addi", reg, reg, any_imm16(draft)));
    }
}

/* ---- what the program shall run into ------------------------------------- */

static uint32_t illegal_word(struct draft *draft)
{
    for (;;) {
        uint32_t word = draw(draft);
        if (chance(draft, 40))
            word &= 0x03FFFFFF;                 /* opcode 00, some function */
        else if (chance(draft, 20))
            word = (word & 0x03FFFFFF) | UINT32_C(0x11) << 26;  /* a floating-point opcode */
        if (instruction_of(word) == NULL)
            return word;
    }
}

static int inside_data(const struct draft *draft, uint32_t address)
{
    uint32_t start = draft->card.data_start;
    return address >= start && address < start + WORD_BYTES * draft->card.data_words;
}

/* An address for a bad access: misaligned, or aligned and outside the data. */
static uint32_t bad_address(struct draft *draft, int aligned)
{
    const struct card *card = &draft->card;
    for (;;) {
        uint32_t address;
        switch (below(draft, 8)) {
        case 0: address = card->data_start + WORD_BYTES * card->data_words; break;
        case 1: address = card->data_start - WORD_BYTES; break;
        case 2: address = address_of(draft, below(draft, card->code_words)); break;
        case 3: address = MEMORY_BYTES; break;
        case 4: address = 0xFFFFFFFC; break;
        case 5: address = WORD_BYTES * below(draft, MEMORY_WORDS); break;
        case 6: address = card->data_start + WORD_BYTES * below(draft, card->data_words + 1); break;
        default: address = draw(draft); break;
        }
        address &= ~UINT32_C(3);
        if (!aligned)
            return address + between(draft, 1, 3);
        if (!inside_data(draft, address))
            return address;
    }
}

/* A counter that cannot be fetched: misaligned, or aligned and outside the code. */
static uint32_t bad_target(struct draft *draft, int aligned)
{
    const struct card *card = &draft->card;
    for (;;) {
        uint32_t target;
        switch (below(draft, 7)) {
        case 0: target = address_of(draft, card->code_words); break;
        case 1: target = card->code_start - WORD_BYTES; break;
        case 2: target = card->data_start; break;
        case 3: target = MEMORY_BYTES; break;
        case 4: target = 0xFFFFFFFC; break;
        case 5: target = address_of(draft, below(draft, card->code_words)); break;
        default: target = chance(draft, 50) ? draw(draft) : below(draft, 2 * MEMORY_BYTES); break;
        }
        target &= ~UINT32_C(3);
        if (!aligned)
            return target + between(draft, 1, 3);
        if (!touches_code(draft, target))
            return target;
    }
}

/* Leaves RS1 and imm with the given sum modulo 2^32. */
static struct fields emit_address(struct draft *draft, uint32_t address)
{
    struct fields fields = {scratch(draft), R_ZERO, 0, 0, 0};
    int64_t near = (int64_t)address - draft->card.data_start;
    if (fits_16(near) && chance(draft, 50)) {
        fields.rs1 = R_DATA;
        fields.imm = (int32_t)near;
    } else if (address <= 32767 && chance(draft, 50)) {
        fields.imm = (int32_t)address;
    } else {
        fields.rs1 = R_ADDRESS;
        fields.imm = any_imm16(draft);
        emit_constant(draft, R_ADDRESS, address - (uint32_t)fields.imm);
    }
    return fields;
}

/* Goes to a bad target by a branch, jal or jr, now and then from a delay slot. */
static void emit_bad_transfer(struct draft *draft, int aligned, enum level level)
{
    uint32_t target = bad_target(draft, aligned);
    if (chance(draft, 30))      /* then the base is the first one's target, the same place */
        emit(draft, branch("beqz", R_ZERO, WORD_BYTES));
    int64_t imm = (int64_t)target - address_of(draft, draft->at + 1);
    if (fits_16(imm) && chance(draft, 70)) {
        emit(draft, sure_transfer(draft, level, (int32_t)imm));
    } else {
        emit_constant(draft, R_ADDRESS, target);
        emit(draft, jump_register("jr", R_ADDRESS));
    }
    emit_slot(draft);
}

static uint32_t event_word(struct draft *draft, enum event event)
{
    static const char *const halves[] = {"lh", "lhu", "sh"};
    const char *access = chance(draft, 50) ? "lw" : "sw";
    struct fields fields;
    uint32_t bad = 0;

    switch (event) {
    case EVENT_23:
        return illegal_word(draft);
    case EVENT_24:
        for (;;) {
            const struct instruction *entry = &instruction_table[below(draft, INSTRUCTIONS)];
            fields = any_fields(draft);
            if (!entry->assembler)
                return make_word(entry, fields);
        }
    case EVENT_25:
    case EVENT_26:
        fields = emit_address(draft, bad_address(draft, event == EVENT_26));
        return make_word(instruction_named(access), fields);
    case EVENT_27:
        while (bad == 0)
            bad = value(draft);
        emit_constant(draft, R_VALUE, bad);
        return to_special(SPR_MODE, R_VALUE);
    case EVENT_TRAP:
        return jump("trap", (int32_t)below(draft, 1 << 26) - (1 << 25));
    case EVENT_OVERFLOW:
        emit_constant(draft, R_VALUE, 0x7FFFFFFF);
        return chance(draft, 50) ? three("addo", scratch(draft), R_VALUE, R_VALUE)
                                 : immediate("subio", scratch(draft), R_VALUE, -1);
    case EVENT_PAST_MEMORY:
        fields = emit_address(draft, MEMORY_BYTES + (chance(draft, 50) ? 0 : draw(draft) & 0x7FFFFFFC));
        return make_word(instruction_named(chance(draft, 50) ? access : "sb"), fields);
    case EVENT_NARROW_MISALIGNED:
        fields = emit_address(draft, bad_address(draft, 1) + 1);
        return make_word(instruction_named(halves[below(draft, 3)]), fields);
    default:
        return nop;
    }
}

enum { EVENT_ROOM = 12 };       /* words an event may need, its guard included */

static void emit_event_now(struct draft *draft, enum level level)
{
    if (draft->event == EVENT_21 || draft->event == EVENT_22) {
        emit_bad_transfer(draft, draft->event == EVENT_22, level);
    } else {
        uint32_t word = event_word(draft, draft->event);
        if (chance(draft, 35))  /* in the delay slot of a taken or untaken transfer */
            emit(draft, chance(draft, 70) ? sure_transfer(draft, level, WORD_BYTES)
                                          : branch("bnez", R_ZERO, any_imm16(draft)));
        emit(draft, word);
    }
    draft->event = EVENT_NONE;
}

/* In a loop the event often waits for one value of the counter. */
static void emit_event(struct draft *draft, enum level level, unsigned counter)
{
    if (draft->event == EVENT_NONE || room(draft) < EVENT_ROOM)
        return;
    if (counter == first_counter[level] || chance(draft, 30)) {
        emit_event_now(draft, level);
        return;
    }
    emit(draft, immediate("addi", R_CONDITION, counter - 1, -(int32_t)between(draft, 1, 3)));
    uint32_t guard = draft->at;
    emit(draft, nop);           /* becomes the branch over the event */
    emit_slot(draft);
    emit_event_now(draft, level);
    put_code(draft, guard, branch("bnez", R_CONDITION, distance(guard, draft->at)));
}

/* ---- blocks -------------------------------------------------------------- */

static void emit_items(struct draft *draft, enum level level, unsigned counter, uint32_t count);

/* A loop that counts down, or up to a bound. */
static void emit_loop(struct draft *draft, enum level level, unsigned counter)
{
    enum { LOOP_END = 5 };      /* words after the body */
    if (counter >= end_counter[level] || room(draft) < LOOP_END + 4)
        return;
    int32_t rounds = (int32_t)(chance(draft, 8) ? between(draft, 50, 3000) : between(draft, 1, 12));
    int upward = chance(draft, 35);

    emit(draft, immediate("addi", counter, R_ZERO, upward ? 0 : rounds));
    uint32_t top = draft->at;
    draft->reserve += LOOP_END;
    emit_items(draft, level, counter + 1, between(draft, 1, 6));
    draft->reserve -= LOOP_END;
    if (upward) {
        emit(draft, immediate("addi", counter, counter, 1));
        emit(draft, immediate("addi", R_BOUND, R_ZERO, rounds));
        emit(draft, three(chance(draft, 50) ? "sgr" : "sne", R_CONDITION, R_BOUND, counter));
        emit(draft, branch("bnez", R_CONDITION, distance(draft->at, top)));
        emit_slot(draft);
    } else if (chance(draft, 50)) {
        emit(draft, immediate("addi", counter, counter, -1));
        emit(draft, branch("bnez", counter, distance(draft->at, top)));
        emit_slot(draft);
    } else {                    /* the delay slot counts; one round more */
        emit(draft, branch("bnez", counter, distance(draft->at, top)));
        emit(draft, immediate("addi", counter, counter, -1));
    }
}

/* One or two ways, by a comparison. */
static void emit_choice(struct draft *draft, enum level level, unsigned counter)
{
    enum { CHOICE_END = 3 };
    static const char *const tests[] = {"sgr", "sge", "sne"};
    if (room(draft) < CHOICE_END + 6)
        return;
    unsigned condition = R_CONDITION;
    if (chance(draft, 75))
        emit(draft, any_three(draft, tests[below(draft, 3)], R_CONDITION));
    else
        condition = source(draft);
    uint32_t first = draft->at;
    emit(draft, nop);           /* becomes the branch over the first way */
    emit_slot(draft);
    draft->reserve += CHOICE_END;
    emit_items(draft, level, counter, between(draft, 1, 4));
    draft->reserve -= CHOICE_END;
    uint32_t second = draft->at;
    int two_ways = chance(draft, 40) && room(draft) >= CHOICE_END;
    if (two_ways) {
        emit(draft, nop);       /* becomes the transfer over the second way */
        emit_slot(draft);
    }
    put_code(draft, first, branch(chance(draft, 50) ? "beqz" : "bnez", condition,
                                  distance(first, draft->at)));
    if (two_ways) {
        emit_items(draft, level, counter, between(draft, 1, 3));
        put_code(draft, second, sure_transfer(draft, level, distance(second, draft->at)));
    }
}

/* A subroutine in the midst of the code, with a transfer over it. */
static void emit_subroutine(struct draft *draft)
{
    enum { SUBROUTINE_END = 2 };
    if (draft->subroutine_count == SUBROUTINES_MAX || room(draft) < 16)
        return;
    int leaf = draft->subroutine_count == 0 || chance(draft, 60);
    enum level level = leaf ? LEVEL_LEAF : LEVEL_CALLER;
    enum event event = draft->event;

    uint32_t over = draft->at;
    emit(draft, nop);           /* becomes the transfer over the subroutine */
    emit_slot(draft);
    uint32_t entry = draft->at;
    if (!leaf)
        emit(draft, immediate("addi", R_SAVE, LINK_REGISTER, 0));
    draft->reserve += SUBROUTINE_END;
    draft->event = EVENT_NONE;  /* it may never be called */
    emit_items(draft, level, first_counter[level], between(draft, 2, 6));
    draft->event = event;
    draft->reserve -= SUBROUTINE_END;
    emit(draft, jump_register("jr", leaf ? LINK_REGISTER : R_SAVE));
    emit_slot(draft);
    put_code(draft, over, branch("beqz", R_ZERO, distance(over, draft->at)));
    draft->subroutines[draft->subroutine_count].index = entry;
    draft->subroutines[draft->subroutine_count].leaf = leaf;
    draft->subroutine_count++;
}

static void emit_call(struct draft *draft, enum level level)
{
    if (level == LEVEL_LEAF || draft->subroutine_count == 0 || room(draft) < 3)
        return;
    const struct subroutine *callee =
        &draft->subroutines[below(draft, (uint32_t)draft->subroutine_count)];
    if (level == LEVEL_CALLER && !callee->leaf)
        return;
    if (chance(draft, draft->other_percent)) {
        unsigned reg = chance(draft, 50) ? LINK_REGISTER : R_ADDRESS;
        emit(draft, immediate("addi", reg, R_ZERO, (int32_t)address_of(draft, callee->index)));
        emit(draft, jump_register("jalr", reg));
    } else {
        emit(draft, jump("jal", distance(draft->at, callee->index)));
    }
    emit_slot(draft);
}

static void emit_item(struct draft *draft, enum level level, unsigned counter)
{
    switch (below(draft, 30)) {
    case 0:
    case 1: emit_loop(draft, level, counter); break;
    case 2:
    case 3: emit_choice(draft, level, counter); break;
    case 4:
    case 5: emit_pointer_access(draft); break;
    case 6:
        if (counter < end_counter[level])
            emit_walk(draft, counter);
        break;
    case 7:
        if (level == LEVEL_MAIN)
            emit_subroutine(draft);
        break;
    case 8:
    case 9: emit_call(draft, level); break;
    case 10: emit_transfer_in_slot(draft, level); break;
    case 11:
    case 12:
        if (level == LEVEL_MAIN)
            emit_event(draft, level, counter);
        break;
    case 13:
        if (chance(draft, draft->other_percent))
            emit_return_from_exception(draft);
        break;
    case 14:
        if (chance(draft, draft->other_percent))
            emit_self_change(draft);
        break;
    case 15:
    case 16:
        if (chance(draft, draft->other_percent))
            emit_overflow(draft);
        break;
    case 17: emit_near_comparison(draft); break;
    default:
        if (room(draft) > 0)
            emit(draft, simple_word(draft));
        break;
    }
}

static void emit_items(struct draft *draft, enum level level, unsigned counter, uint32_t count)
{
    for (uint32_t i = 0; i < count && room(draft) > 0; i++)
        emit_item(draft, level, counter);
}

/* ---- whole programs ------------------------------------------------------ */

enum { ENDING_ROOM = 4 };

/* What comes after the last item; most programs start again. */
static void emit_ending(struct draft *draft, uint32_t top)
{
    switch (below(draft, 10)) {
    case 0:                     /* stays on the spot */
        emit(draft, branch("beqz", R_ZERO, -(int32_t)WORD_BYTES));
        break;
    case 1:                     /* runs on, past the end of the code */
        return;
    case 2:
    case 3:
        emit(draft, immediate("addi", R_ADDRESS, R_ZERO, (int32_t)address_of(draft, top)));
        emit(draft, jump_register("jr", R_ADDRESS));
        break;
    case 4:
    case 5:
        emit(draft, jump("jal", distance(draft->at, top)));
        break;
    default:
        emit(draft, sure_transfer(draft, LEVEL_MAIN, distance(draft->at, top)));
        break;
    }
    emit_slot(draft);
}

static void pad_code(struct draft *draft, int runs_on)
{
    int junk = !runs_on && chance(draft, 50);
    while (draft->at < draft->card.code_words)
        emit(draft, junk ? skipped_word(draft) : nop);
}

/* Starts at the last word, a nop, and goes on at the first. */
static void start_at_last_word(struct draft *draft)
{
    uint32_t last = draft->card.code_words - 1;
    if (get_word(draft->card.code + WORD_BYTES * last) != nop)
        return;
    draft->card.regs.dpc = address_of(draft, last);
    draft->card.regs.pc = draft->card.code_start;
}

void draw_program(struct draft *draft)
{
    draft->at = 0;
    draft->reserve = ENDING_ROOM;
    draft->subroutine_count = 0;
    if (chance(draft, 50))
        draft->card.regs.gpr[R_DATA] = draft->card.data_start;
    else
        emit(draft, immediate("addi", R_DATA, R_ZERO, (int32_t)draft->card.data_start));
    uint32_t top = draft->at;
    uint32_t items = chance(draft, 80) ? draft->card.code_words : between(draft, 1, 20);
    if (draft->other_percent > 0 && chance(draft, 50))
        emit_overflow(draft);
    if (draft->event != EVENT_NONE) {
        /* leave room for it, and do not wait for it too long */
        draft->reserve += EVENT_ROOM;
        emit_items(draft, LEVEL_MAIN, first_counter[LEVEL_MAIN], between(draft, 1, 25));
        draft->reserve -= EVENT_ROOM;
        emit_event(draft, LEVEL_MAIN, first_counter[LEVEL_MAIN]);
    }
    emit_items(draft, LEVEL_MAIN, first_counter[LEVEL_MAIN], items);
    draft->reserve = 0;
    uint32_t before = draft->at;
    emit_ending(draft, top);
    pad_code(draft, draft->at == before);
    if (chance(draft, 10))
        start_at_last_word(draft);
}

/* A word with fields that keep it near the program and its data. */
static uint32_t tame_word(struct draft *draft)
{
    const struct instruction *entry = any_instruction(draft);
    struct fields fields = any_fields(draft);
    fields.rd = below(draft, REGISTERS);
    fields.rs1 = below(draft, REGISTERS);
    switch (entry->form) {
    case FORM_LOAD:
    case FORM_STORE:
        return safe_access(draft, entry);
    case FORM_BRANCH:
        fields.imm = WORD_BYTES * ((int32_t)below(draft, 17) - 8);
        break;
    case FORM_JUMP:
        fields.imm = WORD_BYTES * ((int32_t)below(draft, 33) - 16);
        break;
    case FORM_JUMP_REGISTER:
        fields.rs1 = chance(draft, 50) ? LINK_REGISTER : R_ADDRESS;
        break;
    default:
        if (chance(draft, 80) && (fields.rd == R_DATA || fields.rd == R_ADDRESS))
            fields.rd = R_ZERO;
        break;
    }
    return make_word(entry, fields);
}

void draw_random_words(struct draft *draft)
{
    struct card *card = &draft->card;
    uint32_t kind = below(draft, 4);
    card->regs.gpr[R_DATA] = card->data_start;
    card->regs.gpr[R_ADDRESS] = address_of(draft, below(draft, card->code_words));
    card->regs.gpr[LINK_REGISTER] = address_of(draft, below(draft, card->code_words));
    for (uint32_t i = 0; i < card->code_words; i++) {
        const struct instruction *entry = any_instruction(draft);
        uint32_t word = draw(draft);
        if (kind == 1) {        /* a legal word, with any fields */
            struct fields none = {0, 0, 0, 0, 0};
            uint32_t fixed = UINT32_C(0xFC000000) | (entry->opcode == 0 ? 0x3F : 0);
            word = make_word(entry, none) | (word & ~fixed);
        } else if (kind > 1) {
            word = tame_word(draft);
        }
        put_code(draft, i, word);
    }
}

void draw_tiny_loop(struct draft *draft)
{
    struct registers *regs = &draft->card.regs;
    uint32_t start = draft->card.code_start;
    regs->dpc = start;
    regs->pc = start;
    regs->gpr[R_ADDRESS] = start;
    for (uint32_t i = 1; i < draft->card.code_words; i++)
        put_code(draft, i, draw(draft));
    switch (below(draft, 3)) {
    case 0: put_code(draft, 0, branch("beqz", R_ZERO, 0)); break;
    case 1: put_code(draft, 0, jump("jal", 0)); break;
    default: put_code(draft, 0, jump_register("jr", R_ADDRESS)); break;
    }
}

/* ---- bad addresses of a chosen origin ------------------------------------ */

enum { R_TRACED = R_SCRATCH_HIGH_END }; /* the register of the bad address, but for R0 and R31 */

/* What the register of a bad address has its value from. */
enum maker { BY_CARD, BY_ZERO, BY_SUM, BY_TEST, BY_LOAD, BY_LINK, MAKERS };

struct trace {
    enum maker maker;
    int early;                  /* the register is written before the program waits */
    uint32_t rounds;            /* of the loop in which it waits; 0 for a brief program */
    unsigned reg;
    uint32_t value;             /* of the register */
};

/* Puts the value in R_TRACED by way of a data word. */
static void emit_loaded(struct draft *draft, uint32_t word)
{
    int32_t place = (int32_t)(WORD_BYTES * below(draft, draft->card.data_words));
    emit_constant(draft, R_VALUE, word);
    emit(draft, immediate("sw", R_VALUE, R_DATA, place));
    emit(draft, immediate("lw", R_TRACED, R_DATA, place));
}

/* Puts in R_TRACED the value that it has, by any word that can. */
static void emit_again(struct draft *draft)
{
    static const char *const sums[] = {"add", "sub"};
    static const char *const shifts[] = {"slli", "srli"};
    static const char *const immediates[] = {"addi", "ori", "xori"};
    switch (below(draft, 5)) {
    case 0: emit(draft, three(sums[below(draft, 2)], R_TRACED, R_TRACED, R_ZERO)); break;
    case 1: emit(draft, made(shifts[below(draft, 2)], R_TRACED, R_TRACED, 0, 0, 0)); break;
    case 2: emit(draft, immediate(immediates[below(draft, 3)], R_TRACED, R_TRACED, 0)); break;
    case 3: emit(draft, immediate("andi", R_TRACED, R_TRACED, -1)); break;
    default:
        emit(draft, to_special(SPR_RM, R_TRACED));
        emit(draft, made("movs2i", R_TRACED, 0, 0, SPR_RM, 0));
        break;
    }
}

/* Puts 0 or 1 in R_TRACED by a comparison of a register with itself; answers which. */
static uint32_t emit_test(struct draft *draft, int one)
{
    unsigned reg = source(draft);
    const char *other = chance(draft, 50) ? "sne" : "sgr";
    emit(draft, three(one ? "sge" : other, R_TRACED, reg, reg));
    return one ? 1 : 0;
}

/* The words that write the register, if it is not the card's. */
static void emit_maker(struct draft *draft, struct trace *trace)
{
    switch (trace->maker) {
    case BY_SUM:
        emit_constant(draft, R_TRACED, trace->value);
        if (chance(draft, 60))
            emit_again(draft);
        break;
    case BY_TEST:
        trace->value = emit_test(draft, trace->value & 1);
        break;
    case BY_LOAD:
        emit_loaded(draft, trace->value);
        break;
    case BY_LINK:
        trace->value = address_of(draft, draft->at + 2);
        emit(draft, jump("jal", WORD_BYTES));
        emit_slot(draft);
        break;
    default:
        break;
    }
}

/* A word that reads the register at most, and goes on at the next. */
static uint32_t quiet_word(struct draft *draft, unsigned reg)
{
    int32_t imm = any_imm16(draft);
    switch (below(draft, 7)) {
    case 0: return safe_access(draft, instruction_named("sw"));
    case 1: return draft->card.data_words == 0 ? nop : immediate("sw", reg, R_DATA, 0);
    case 2: return to_special(SPR_RM, reg);
    case 3: return safe_to_special(draft);
    case 4: return immediate("addi", R_ZERO, source(draft), imm);
    case 5: return branch("bnez", R_ZERO, imm);
    default: return branch("beqz", R_ZERO, WORD_BYTES);
    }
}

/* A loop of single words, so that what comes is late. */
static void emit_wait(struct draft *draft, uint32_t rounds)
{
    if (rounds == 0)
        return;
    emit(draft, immediate("addi", R_LOOP, R_ZERO, (int32_t)rounds));
    uint32_t top = draft->at;
    for (uint32_t i = between(draft, 0, 4); i > 0; i--)
        emit(draft, simple_word(draft));
    emit(draft, immediate("addi", R_LOOP, R_LOOP, -1));
    emit(draft, branch("bnez", R_LOOP, distance(draft->at, top)));
    emit_slot(draft);
    emit_items(draft, LEVEL_MAIN, first_counter[LEVEL_MAIN], below(draft, 4));
}

/* All that comes before the use of the register. */
static void emit_trace(struct draft *draft, struct trace *trace)
{
    if (trace->maker == BY_ZERO || trace->maker == BY_LINK)
        trace->reg = trace->maker == BY_ZERO ? R_ZERO : LINK_REGISTER;
    if (trace->maker == BY_ZERO)
        trace->value = 0;
    if (trace->maker == BY_CARD)
        draft->card.regs.gpr[R_TRACED] = trace->value;
    if (trace->early)
        emit_maker(draft, trace);
    emit_wait(draft, trace->rounds);
    if (!trace->early)
        emit_maker(draft, trace);
    for (uint32_t i = trace->rounds == 0 ? 0 : below(draft, 4); i > 0; i--)
        emit(draft, quiet_word(draft, trace->reg));
}

/* An immediate that leads from a base to a bad address. */
static int32_t bad_imm(struct draft *draft, int aligned, uint32_t base)
{
    for (;;) {
        int32_t imm = (int32_t)(bad_address(draft, aligned) - base);
        if (fits_16(imm))
            return imm;
    }
}

/* 25 or 26. */
static void emit_traced_access(struct draft *draft, int aligned, struct trace *trace)
{
    const char *name = chance(draft, 50) ? "lw" : "sw";
    int32_t imm = any_imm16(draft);
    trace->value = bad_address(draft, aligned) - (uint32_t)imm;
    emit_trace(draft, trace);
    if (trace->maker == BY_ZERO || trace->maker == BY_TEST || trace->maker == BY_LINK)
        imm = bad_imm(draft, aligned, trace->value);
    unsigned moved = chance(draft, 20) ? trace->reg : scratch(draft);
    emit(draft, immediate(name, moved, trace->reg, imm));
}

/* The delay slot of a transfer to a bad target, whose register it may write. */
static void emit_traced_slot(struct draft *draft, unsigned reg)
{
    switch (below(draft, 6)) {
    case 0: emit(draft, immediate("addi", reg, reg, any_imm16(draft))); break;
    case 1: emit(draft, branch("beqz", R_ZERO, any_imm16(draft))); break;
    case 2: emit(draft, chance(draft, 50) ? jump("jal", WORD_BYTES) : jump_register("jr", reg)); break;
    default: emit_slot(draft); break;
    }
}

/* 21 or 22 by jr. */
static void emit_traced_jr(struct draft *draft, int aligned, struct trace *trace)
{
    trace->value = trace->maker == BY_TEST ? 1 : bad_target(draft, aligned);
    emit_trace(draft, trace);
    if (chance(draft, 20))      /* jr stands in a delay slot itself */
        emit(draft, branch("beqz", R_ZERO, WORD_BYTES));
    emit(draft, jump_register("jr", trace->reg));
    emit_traced_slot(draft, trace->reg);
}

/* 21 or 22 by an immediate. */
static void emit_traced_branch(struct draft *draft, int aligned, struct trace *trace)
{
    int64_t imm;
    trace->maker = BY_CARD;     /* for bnez, not zero */
    trace->value = 1;
    emit_trace(draft, trace);
    if (chance(draft, 20))
        emit(draft, branch("beqz", R_ZERO, WORD_BYTES));
    do
        imm = (int64_t)bad_target(draft, aligned) - address_of(draft, draft->at + 1);
    while (!fits_16(imm));
    switch (below(draft, 3)) {
    case 0: emit(draft, jump("jal", (int32_t)imm)); break;
    case 1: emit(draft, branch("beqz", R_ZERO, (int32_t)imm)); break;
    default: emit(draft, branch("bnez", R_TRACED, (int32_t)imm)); break;
    }
    emit_traced_slot(draft, R_TRACED);
}

static void emit_up_to(struct draft *draft, uint32_t index)
{
    while (draft->at < index)
        emit(draft, simple_word(draft));
}

/* 22 behind the last word. */
static void emit_traced_end(struct draft *draft, struct trace *trace)
{
    trace->maker = BY_CARD;
    trace->value = 1;
    emit_trace(draft, trace);
    emit_up_to(draft, draft->card.code_words - 2);
    switch (below(draft, 6)) {
    case 0: emit(draft, branch("bnez", R_ZERO, any_imm16(draft))); break;       /* not taken */
    case 1: emit(draft, branch("beqz", R_TRACED, any_imm16(draft))); break;     /* not taken */
    case 2: emit(draft, branch("beqz", R_ZERO, WORD_BYTES)); break;             /* taken, to the next word */
    case 3: emit(draft, branch("bnez", R_TRACED, WORD_BYTES)); break;           /* the same */
    default: emit_slot(draft); break;
    }
    emit_traced_slot(draft, R_TRACED);
}

/* 22 by jr to the link of a jal that is the last word but one. */
static void emit_traced_return(struct draft *draft, struct trace *trace)
{
    trace->maker = BY_CARD;
    emit(draft, branch("beqz", R_ZERO, distance(draft->at, draft->at + 4)));        /* over the return */
    emit_slot(draft);
    uint32_t entry = draft->at;
    emit(draft, jump_register("jr", LINK_REGISTER));
    emit_traced_slot(draft, LINK_REGISTER);
    emit_trace(draft, trace);
    emit_up_to(draft, draft->card.code_words - 2);
    emit(draft, jump("jal", distance(draft->at, entry)));
    emit_slot(draft);
}

static uint32_t draw_rounds(struct draft *draft)
{
    uint32_t dice = below(draft, 100);
    if (dice < 70)
        return between(draft, 1, 300);
    return dice < 97 ? between(draft, 301, 4000) : between(draft, 4001, 32000);
}

static void emit_traced_event(struct draft *draft, enum event event, struct trace *trace)
{
    int aligned = event == EVENT_22 || event == EVENT_26;
    if (event == EVENT_25 || event == EVENT_26) {
        emit_traced_access(draft, aligned, trace);
        return;
    }
    if (trace->maker == BY_ZERO && (!aligned || touches_code(draft, 0)))
        trace->maker = BY_SUM;  /* 0 is no bad target */
    if (trace->maker == BY_TEST && aligned)
        trace->maker = BY_SUM;  /* 1 is a bad target for its last bits */
    switch (below(draft, aligned ? 10 : 8)) {
    case 0: case 1: case 2: case 3:
        emit_traced_branch(draft, aligned, trace);
        break;
    case 8:
        emit_traced_end(draft, trace);
        break;
    case 9:
        emit_traced_return(draft, trace);
        break;
    default:
        if (trace->maker == BY_LINK)
            trace->maker = BY_LOAD;     /* the link here is a good target */
        emit_traced_jr(draft, aligned, trace);
        break;
    }
}

void draw_traced(struct draft *draft, int brief)
{
    static const enum event events[] = {EVENT_21, EVENT_22, EVENT_25, EVENT_26};
    enum { TRACE_ROOM = 24 };   /* words of all parts but the items */
    enum event event = events[below(draft, 4)];
    struct trace trace = {(enum maker)below(draft, MAKERS), 0, 0, R_TRACED, 0};

    draft->at = 0;
    draft->reserve = TRACE_ROOM;
    draft->kept = R_TRACED;
    draft->card.regs.gpr[R_DATA] = draft->card.data_start;
    if (!brief) {
        trace.rounds = draw_rounds(draft);
        trace.early = trace.maker != BY_LINK && chance(draft, 50);
    }
    if (draft->card.data_words == 0 && (trace.maker == BY_LOAD || trace.maker == BY_LINK))
        trace.maker = BY_SUM;
    emit_traced_event(draft, event, &trace);
    pad_code(draft, 0);
    draft->card.limit = 9 * trace.rounds + between(draft, 200, 4000);
}

void fill_unused_fields(struct draft *draft)
{
    for (uint32_t i = 0; i < draft->card.code_words; i++) {
        uint32_t word = get_word(draft->card.code + WORD_BYTES * i);
        const struct instruction *entry = instruction_of(word);
        if (entry != NULL)
            put_code(draft, i, (word & used_bits(entry)) | (draw(draft) & ~used_bits(entry)));
    }
}
