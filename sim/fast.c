/*
 * Nivoplet: see fast.h.
 *
 * The record is taken apart into locals once and put together at the end, and
 * code and data are words, so that an access is one instruction. Each step
 * makes the tests of checker_step in the same order, tells all 58 words apart
 * and decodes its word anew. It shares the card and the numbers of sim.h with
 * the plain checker, and no code that a step runs.
 */
#include "fast.h"

static unsigned rs1(uint32_t word) { return word >> 21 & 31; }
static unsigned second(uint32_t word) { return word >> 16 & 31; }  /* RD of I, RS2 of R */
static unsigned third(uint32_t word) { return word >> 11 & 31; }   /* RD of R */
static unsigned amount(uint32_t word) { return word >> 6 & 31; }

/* Two's complement, as on every processor with a C11 compiler. */
static uint32_t imm16(uint32_t word) { return (uint32_t)(int16_t)word; }
static uint32_t imm26(uint32_t word) { return (uint32_t)((int32_t)(word << 6) >> 6); }

static int special_is_used(unsigned number)
{
    return number <= SPR_EMODE || number == SPR_MODE;
}

/* One comparison: an address below the start wraps, past the end of every region that loads. */
static int is_outside(uint32_t address, uint32_t start, uint32_t words)
{
    return (address - start) / WORD_BYTES >= words;
}

static int data_test(uint32_t ea, uint32_t start, uint32_t words)
{
    if (ea % WORD_BYTES != 0)
        return CHECK_EA_ALIGNMENT;
    if (is_outside(ea, start, words))
        return CHECK_EA_REGION;
    return CHECK_OK;
}

static void to_words(const uint8_t *bytes, uint32_t *words, uint32_t count)
{
    for (uint32_t i = 0; i < count; i++)
        words[i] = get_word(bytes + WORD_BYTES * i);
}

static void to_bytes(const uint32_t *words, uint8_t *bytes, uint32_t count)
{
    for (uint32_t i = 0; i < count; i++)
        put_word(bytes + WORD_BYTES * i, words[i]);
}

struct check_result fast_run(struct checker *machine, uint32_t limit)
{
    const uint32_t code_start = machine->card.code_start;
    const uint32_t code_words = machine->card.code_words;
    const uint32_t data_start = machine->card.data_start;
    const uint32_t data_words = machine->card.data_words;
    uint32_t code[REGION_WORDS_MAX], data[REGION_WORDS_MAX];
    struct registers regs = machine->regs;
    uint32_t *const r = regs.gpr, *const s = regs.spr;
    uint32_t dpc = regs.dpc, pc = regs.pc;
    uint32_t steps, word = 0, ea;
    int answer = CHECK_OK;

    to_words(machine->card.code, code, code_words);
    to_words(machine->data, data, data_words);

    for (steps = 0; steps < limit; steps++) {
        uint32_t next = pc + WORD_BYTES;

        if (dpc % WORD_BYTES != 0) {
            answer = CHECK_DPC_ALIGNMENT;
            break;
        }
        if (is_outside(dpc, code_start, code_words)) {
            answer = CHECK_DPC_REGION;
            break;
        }
        word = code[(dpc - code_start) / WORD_BYTES];

        switch (word >> 26) {
        case 0x00:
            switch (FUNCTION_BASE + (word & 0x3F)) {
            case FN_SLLI: r[third(word)] = r[rs1(word)] << amount(word); break;
            case FN_SRLI: r[third(word)] = r[rs1(word)] >> amount(word); break;
            case FN_MOVS2I:
                r[third(word)] = special_is_used(amount(word)) ? s[amount(word)] : 0;
                break;
            case FN_MOVI2S:
                if (amount(word) == SPR_MODE && r[rs1(word)] != 0) {
                    answer = CHECK_MODE;
                    goto stopped;
                }
                if (special_is_used(amount(word)))
                    s[amount(word)] = r[rs1(word)];
                break;
            case FN_ADD: r[third(word)] = r[rs1(word)] + r[second(word)]; break;
            case FN_SUB: r[third(word)] = r[rs1(word)] - r[second(word)]; break;
            case FN_SGR: r[third(word)] = (int32_t)r[rs1(word)] > (int32_t)r[second(word)]; break;
            case FN_SGE: r[third(word)] = (int32_t)r[rs1(word)] >= (int32_t)r[second(word)]; break;
            case FN_SNE: r[third(word)] = r[rs1(word)] != r[second(word)]; break;
            case FN_SLAI: case FN_SRAI: case FN_SLL: case FN_SLA: case FN_SRL: case FN_SRA:
            case FN_ADDO: case FN_SUBO: case FN_AND: case FN_OR: case FN_XOR: case FN_LHG:
            case FN_CLR: case FN_SEQ: case FN_SLS: case FN_SLE: case FN_SET:
                answer = CHECK_NOT_ASSEMBLER;
                goto stopped;
            default:
                answer = CHECK_ILLEGAL;
                goto stopped;
            }
            break;

        case OP_LW:
            ea = r[rs1(word)] + imm16(word);
            if ((answer = data_test(ea, data_start, data_words)) != CHECK_OK)
                goto stopped;
            r[second(word)] = data[(ea - data_start) / WORD_BYTES];
            break;
        case OP_SW:
            ea = r[rs1(word)] + imm16(word);
            if ((answer = data_test(ea, data_start, data_words)) != CHECK_OK)
                goto stopped;
            data[(ea - data_start) / WORD_BYTES] = r[second(word)];
            break;

        case OP_ADDI: r[second(word)] = r[rs1(word)] + imm16(word); break;
        case OP_ANDI: r[second(word)] = r[rs1(word)] & imm16(word); break;
        case OP_ORI: r[second(word)] = r[rs1(word)] | imm16(word); break;
        case OP_XORI: r[second(word)] = r[rs1(word)] ^ imm16(word); break;
        case OP_LHGI: r[second(word)] = imm16(word) << 16; break;

        case OP_BEQZ:
            if (r[rs1(word)] == 0)
                next = pc + imm16(word);
            break;
        case OP_BNEZ:
            if (r[rs1(word)] != 0)
                next = pc + imm16(word);
            break;
        case OP_JAL:
            r[LINK_REGISTER] = next;
            next = pc + imm26(word);
            break;
        case OP_JR: next = r[rs1(word)]; break;

        case OP_J: case OP_TRAP: case OP_RFE: case OP_JALR:
        case OP_ADDIO: case OP_SUBIO: case OP_SUBI:
        case OP_CLRI: case OP_SGRI: case OP_SEQI: case OP_SGEI:
        case OP_SLSI: case OP_SNEI: case OP_SLEI: case OP_SETI:
        case OP_LB: case OP_LH: case OP_LBU: case OP_LHU: case OP_SB: case OP_SH:
            answer = CHECK_NOT_ASSEMBLER;
            goto stopped;

        /* The opcodes of no word: with these all 64 are named, and no test for another is compiled. */
        case 0x01: case 0x06: case 0x07: case 0x22: case 0x26: case 0x27: case 0x2A:
        case 0x10: case 0x11: case 0x12: case 0x13: case 0x14: case 0x15:
        case 0x2C: case 0x2D: case 0x2E: case 0x2F: case 0x30: case 0x31:
        case 0x32: case 0x33: case 0x34: case 0x35: case 0x36: case 0x37:
        case 0x38: case 0x39: case 0x3A: case 0x3B: case 0x3C: case 0x3D:
            answer = CHECK_ILLEGAL;
            goto stopped;
        }
        r[0] = 0;               /* a write to R0 is dropped */
        dpc = pc;
        pc = next;
    }
stopped:
    regs.dpc = dpc;
    regs.pc = pc;
    machine->regs = regs;
    to_bytes(data, machine->data, data_words);
    return (struct check_result){steps, answer, dpc, answer >= CHECK_ILLEGAL ? word : 0};
}
