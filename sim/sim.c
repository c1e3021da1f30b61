/*
 * Nivoplet reference simulator: see sim.h.
 *
 * Both machines hold their memory as bytes and run one flat switch each over
 * the instruction numbers. The two switches share nothing but the small
 * helpers below, so that comparing the machines is a check in itself.
 */
#include "sim.h"

#include <inttypes.h>
#include <stdio.h>
#include <string.h>

/* ---- words and fields ---------------------------------------------------- */

uint32_t get_word(const uint8_t *bytes)
{
    return (uint32_t)bytes[0] | (uint32_t)bytes[1] << 8 |
           (uint32_t)bytes[2] << 16 | (uint32_t)bytes[3] << 24;
}

void put_word(uint8_t *bytes, uint32_t value)
{
    bytes[0] = (uint8_t)value;
    bytes[1] = (uint8_t)(value >> 8);
    bytes[2] = (uint8_t)(value >> 16);
    bytes[3] = (uint8_t)(value >> 24);
}

unsigned instruction_number(uint32_t word)
{
    uint32_t opcode = word >> 26;               /* bits 31..26 */
    if (opcode == 0)
        return FUNCTION_BASE + (word & 0x3F);   /* bits 5..0 */
    return opcode;
}

static unsigned field_rs1(uint32_t word) { return word >> 21 & 31; }   /* 25..21, I and R */
static unsigned field_rs2(uint32_t word) { return word >> 16 & 31; }   /* 20..16, R */
static unsigned field_rd_r(uint32_t word) { return word >> 11 & 31; }  /* 15..11, R */
static unsigned field_rd_i(uint32_t word) { return word >> 16 & 31; }  /* 20..16, I */
static unsigned field_sa(uint32_t word) { return word >> 6 & 31; }     /* 10..6, R */

/* Sign extension of the low bits of a value, modulo 2^32. */
static uint32_t sign_extend(uint32_t value, unsigned bits)
{
    uint32_t sign = UINT32_C(1) << (bits - 1);
    uint32_t low = value & ((sign << 1) - 1);
    return (low ^ sign) - sign;
}

static uint32_t imm16(uint32_t word) { return sign_extend(word, 16); } /* I */
static uint32_t imm26(uint32_t word) { return sign_extend(word, 26); } /* J */

/* The two's complement reading of a word. */
static int64_t signed_value(uint32_t word)
{
    int64_t value = word;
    return word >> 31 ? value - (INT64_C(1) << 32) : value;
}

static uint32_t shift_right_signed(uint32_t value, unsigned amount)
{
    return value >> 31 ? ~(~value >> amount) : value >> amount;
}

static int in_region(uint64_t address, uint64_t start, uint64_t words)
{
    return start <= address && address < start + WORD_BYTES * words;
}

static int special_is_used(unsigned number)
{
    return number <= SPR_EMODE || number == SPR_MODE;
}

static uint32_t special_read(const struct registers *regs, unsigned number)
{
    return special_is_used(number) ? regs->spr[number] : 0;
}

static void special_write(struct registers *regs, unsigned number, uint32_t value)
{
    if (special_is_used(number))
        regs->spr[number] = value;
}

/* ---- the run card -------------------------------------------------------- */

static int bad_mark(const uint8_t *bytes)
{
    return memcmp(bytes + CARD_MARK, "SND", 3) != 0;
}

static int bad_version(const uint8_t *bytes)
{
    return bytes[CARD_VERSION] != 1 || bytes[CARD_VERSION + 1] != 0;
}

static int bad_zeros(const uint8_t *bytes)
{
    return bytes[CARD_ZEROS] != 0 || bytes[CARD_ZEROS + 1] != 0 || bytes[CARD_ZEROS + 2] != 0;
}

static int bad_registers(const uint8_t *bytes)
{
    if (get_word(bytes + CARD_GPR) != 0)
        return 1;
    for (unsigned i = 0; i < REGISTERS; i++) {
        int must_be_zero = !special_is_used(i) || i == SPR_MODE;
        if (must_be_zero && get_word(bytes + CARD_SPR + WORD_BYTES * i) != 0)
            return 1;
    }
    return 0;
}

/* The first refusal that holds, or 0. Sums are of whole numbers. */
static int card_refusal(const uint8_t *bytes, size_t length)
{
    if (length < CARD_BODY)
        return REFUSED_SHORT;
    if (bad_mark(bytes))
        return REFUSED_MARK;
    if (bad_version(bytes))
        return REFUSED_VERSION;
    if (bad_zeros(bytes))
        return REFUSED_ZEROS;

    uint64_t code_start = get_word(bytes + CARD_CODE_START);
    uint64_t code_words = get_word(bytes + CARD_CODE_WORDS);
    uint64_t data_start = get_word(bytes + CARD_DATA_START);
    uint64_t data_words = get_word(bytes + CARD_DATA_WORDS);
    uint64_t code_end = code_start + WORD_BYTES * code_words;
    uint64_t data_end = data_start + WORD_BYTES * data_words;

    if (code_words == 0 || code_words > REGION_WORDS_MAX || data_words > REGION_WORDS_MAX)
        return REFUSED_COUNTS;
    if ((uint64_t)length != CARD_BODY + WORD_BYTES * (code_words + data_words))
        return REFUSED_LENGTH;
    if (code_start % WORD_BYTES != 0 || data_start % WORD_BYTES != 0)
        return REFUSED_ALIGNMENT;
    if (code_end > MEMORY_BYTES || data_end > MEMORY_BYTES)
        return REFUSED_END;
    if (data_words != 0 && code_start < data_end && data_start < code_end)
        return REFUSED_OVERLAP;
    if (bad_registers(bytes))
        return REFUSED_REGISTERS;
    if (get_word(bytes + CARD_LIMIT) > STEP_LIMIT_MAX)
        return REFUSED_LIMIT;
    return REFUSED_NOT;
}

int card_load(const uint8_t *bytes, size_t length, struct card *card)
{
    memset(card, 0, sizeof *card);
    int refusal = card_refusal(bytes, length);
    if (refusal != REFUSED_NOT)
        return refusal;

    card->code_start = get_word(bytes + CARD_CODE_START);
    card->code_words = get_word(bytes + CARD_CODE_WORDS);
    card->data_start = get_word(bytes + CARD_DATA_START);
    card->data_words = get_word(bytes + CARD_DATA_WORDS);
    card->limit = get_word(bytes + CARD_LIMIT);
    card->regs.dpc = get_word(bytes + CARD_DPC);
    card->regs.pc = get_word(bytes + CARD_PC);
    for (unsigned i = 0; i < REGISTERS; i++) {
        card->regs.gpr[i] = get_word(bytes + CARD_GPR + WORD_BYTES * i);
        card->regs.spr[i] = get_word(bytes + CARD_SPR + WORD_BYTES * i);
    }
    size_t code_bytes = WORD_BYTES * (size_t)card->code_words;
    size_t data_bytes = WORD_BYTES * (size_t)card->data_words;
    memcpy(card->code, bytes + CARD_BODY, code_bytes);
    memcpy(card->data, bytes + CARD_BODY + code_bytes, data_bytes);
    return REFUSED_NOT;
}

size_t card_write(const struct card *card, uint8_t bytes[CARD_BYTES_MAX])
{
    size_t code_bytes = WORD_BYTES * (size_t)card->code_words;
    size_t data_bytes = WORD_BYTES * (size_t)card->data_words;

    memset(bytes, 0, CARD_BODY);
    memcpy(bytes + CARD_MARK, "SND", 3);
    bytes[CARD_VERSION] = 1;
    put_word(bytes + CARD_CODE_START, card->code_start);
    put_word(bytes + CARD_CODE_WORDS, card->code_words);
    put_word(bytes + CARD_DATA_START, card->data_start);
    put_word(bytes + CARD_DATA_WORDS, card->data_words);
    put_word(bytes + CARD_DPC, card->regs.dpc);
    put_word(bytes + CARD_PC, card->regs.pc);
    put_word(bytes + CARD_LIMIT, card->limit);
    for (unsigned i = 0; i < REGISTERS; i++) {
        put_word(bytes + CARD_GPR + WORD_BYTES * i, card->regs.gpr[i]);
        put_word(bytes + CARD_SPR + WORD_BYTES * i, card->regs.spr[i]);
    }
    memcpy(bytes + CARD_BODY, card->code, code_bytes);
    memcpy(bytes + CARD_BODY + code_bytes, card->data, data_bytes);
    return CARD_BODY + code_bytes + data_bytes;
}

/* ---- the assembler machine, checked -------------------------------------- */

void checker_start(struct checker *machine, const struct card *card)
{
    machine->card = *card;
    machine->regs = card->regs;
    memcpy(machine->data, card->data, sizeof machine->data);
}

static uint32_t checker_word(const struct checker *machine)
{
    return get_word(machine->card.code + (machine->regs.dpc - machine->card.code_start));
}

static int data_test(const struct card *card, uint32_t ea)
{
    if (ea % WORD_BYTES != 0)
        return CHECK_EA_ALIGNMENT;
    if (!in_region(ea, card->data_start, card->data_words))
        return CHECK_EA_REGION;
    return CHECK_OK;
}

int checker_step(struct checker *machine)
{
    const struct card *card = &machine->card;
    struct registers *regs = &machine->regs;
    uint32_t *r = regs->gpr;

    if (regs->dpc % WORD_BYTES != 0)
        return CHECK_DPC_ALIGNMENT;
    if (!in_region(regs->dpc, card->code_start, card->code_words))
        return CHECK_DPC_REGION;

    uint32_t word = checker_word(machine);
    unsigned rs1 = field_rs1(word);
    unsigned rs2 = field_rs2(word);
    unsigned rd_r = field_rd_r(word);
    unsigned rd_i = field_rd_i(word);
    unsigned sa = field_sa(word);
    uint32_t imm = imm16(word);
    uint32_t ea = r[rs1] + imm;
    uint32_t old_pc = regs->pc;
    uint32_t new_pc = old_pc + WORD_BYTES;
    int bad;

    switch (instruction_number(word)) {
    case OP_LW:
        if ((bad = data_test(card, ea)) != CHECK_OK)
            return bad;
        r[rd_i] = get_word(machine->data + (ea - card->data_start));
        break;
    case OP_SW:
        if ((bad = data_test(card, ea)) != CHECK_OK)
            return bad;
        put_word(machine->data + (ea - card->data_start), r[rd_i]);
        break;

    case FN_MOVS2I:
        r[rd_r] = special_read(regs, sa);
        break;
    case FN_MOVI2S:
        if (sa == SPR_MODE && r[rs1] != 0)
            return CHECK_MODE;
        special_write(regs, sa, r[rs1]);
        break;

    case FN_ADD: r[rd_r] = r[rs1] + r[rs2]; break;
    case FN_SUB: r[rd_r] = r[rs1] - r[rs2]; break;
    case FN_SLLI: r[rd_r] = r[rs1] << sa; break;
    case FN_SRLI: r[rd_r] = r[rs1] >> sa; break;

    case OP_ADDI: r[rd_i] = r[rs1] + imm; break;
    case OP_LHGI: r[rd_i] = imm << 16; break;
    case OP_ANDI: r[rd_i] = r[rs1] & imm; break;
    case OP_ORI: r[rd_i] = r[rs1] | imm; break;
    case OP_XORI: r[rd_i] = r[rs1] ^ imm; break;

    case FN_SNE: r[rd_r] = r[rs1] != r[rs2]; break;
    case FN_SGR: r[rd_r] = signed_value(r[rs1]) > signed_value(r[rs2]); break;
    case FN_SGE: r[rd_r] = signed_value(r[rs1]) >= signed_value(r[rs2]); break;

    case OP_BEQZ:
        if (r[rs1] == 0)
            new_pc = old_pc + imm;
        break;
    case OP_BNEZ:
        if (r[rs1] != 0)
            new_pc = old_pc + imm;
        break;
    case OP_JAL:
        r[LINK_REGISTER] = old_pc + WORD_BYTES;
        new_pc = old_pc + imm26(word);
        break;
    case OP_JR:
        new_pc = r[rs1];
        break;

    /* The other 38 legal words. */
    case OP_J: case OP_TRAP: case OP_RFE: case OP_JALR:
    case OP_ADDIO: case OP_SUBIO: case OP_SUBI:
    case OP_CLRI: case OP_SGRI: case OP_SEQI: case OP_SGEI:
    case OP_SLSI: case OP_SNEI: case OP_SLEI: case OP_SETI:
    case OP_LB: case OP_LH: case OP_LBU: case OP_LHU: case OP_SB: case OP_SH:
    case FN_SLAI: case FN_SRAI: case FN_SLL: case FN_SLA: case FN_SRL: case FN_SRA:
    case FN_ADDO: case FN_SUBO: case FN_AND: case FN_OR: case FN_XOR: case FN_LHG:
    case FN_CLR: case FN_SEQ: case FN_SLS: case FN_SLE: case FN_SET:
        return CHECK_NOT_ASSEMBLER;

    default:
        return CHECK_ILLEGAL;
    }

    r[0] = 0;                   /* a write to R0 is dropped */
    regs->dpc = old_pc;
    regs->pc = new_pc;
    return CHECK_OK;
}

struct check_result checker_run(struct checker *machine, uint32_t limit)
{
    struct check_result result = {0, CHECK_OK, 0, 0};
    while (result.steps < limit) {
        result.answer = checker_step(machine);
        if (result.answer != CHECK_OK)
            break;
        result.steps++;
    }
    result.dpc = machine->regs.dpc;
    if (result.answer >= CHECK_ILLEGAL)
        result.word = checker_word(machine);
    return result;
}

/* ---- the VAMP machine ---------------------------------------------------- */

void vamp_start(struct vamp *machine, const struct card *card)
{
    memset(machine, 0, sizeof *machine);
    machine->regs = card->regs;
    memcpy(machine->memory + card->code_start, card->code, WORD_BYTES * (size_t)card->code_words);
    memcpy(machine->memory + card->data_start, card->data, WORD_BYTES * (size_t)card->data_words);
}

static struct vamp_answer stop(int answer, uint32_t cause)
{
    struct vamp_answer a = {answer, cause};
    return a;
}

/* Events 4 and 5 of a load or store: answer 0 when neither holds. */
static struct vamp_answer access_event(uint32_t ea, uint32_t size)
{
    if (ea % size != 0)
        return stop(VAMP_INTERRUPT, CAUSE_MISALIGNED);
    if (ea >= MEMORY_BYTES)     /* aligned, so its last byte is no question */
        return stop(VAMP_PAST_MEMORY, 0);
    return stop(VAMP_STEPPED, 0);
}

static int overflows(int64_t exact)
{
    return exact < INT32_MIN || exact > INT32_MAX;
}

struct vamp_answer vamp_step(struct vamp *machine)
{
    struct registers *regs = &machine->regs;
    uint8_t *memory = machine->memory;
    uint32_t *r = regs->gpr;
    const uint32_t overflow_unmasked = regs->spr[SPR_SR] & CAUSE_OVERFLOW;

    if (regs->dpc % WORD_BYTES != 0)
        return stop(VAMP_INTERRUPT, CAUSE_MISALIGNED);
    if (regs->dpc >= MEMORY_BYTES)
        return stop(VAMP_PAST_MEMORY, 0);

    const uint32_t word = get_word(memory + regs->dpc);
    const unsigned rd_r = field_rd_r(word);
    const unsigned rd_i = field_rd_i(word);
    const unsigned sa = field_sa(word);
    const uint32_t a = r[field_rs1(word)];      /* value of RS1 */
    const uint32_t b = r[field_rs2(word)];      /* value of RS2 */
    const unsigned b_amount = b & 31;           /* variable shifts: low five bits */
    const uint32_t imm = imm16(word);
    const int64_t signed_a = signed_value(a);
    const int64_t signed_b = signed_value(b);
    const int64_t signed_imm = signed_value(imm);
    const uint32_t ea = a + imm;
    const uint32_t old_pc = regs->pc;
    uint32_t new_dpc = old_pc;
    uint32_t new_pc = old_pc + WORD_BYTES;
    uint32_t cause = 0;
    int64_t exact;
    struct vamp_answer event;

    switch (instruction_number(word)) {
    /* loads and stores */
    case OP_LB:
        if ((event = access_event(ea, 1)).answer != 0)
            return event;
        r[rd_i] = sign_extend(memory[ea], 8);
        break;
    case OP_LBU:
        if ((event = access_event(ea, 1)).answer != 0)
            return event;
        r[rd_i] = memory[ea];
        break;
    case OP_LH:
        if ((event = access_event(ea, 2)).answer != 0)
            return event;
        r[rd_i] = sign_extend((uint32_t)memory[ea] | (uint32_t)memory[ea + 1] << 8, 16);
        break;
    case OP_LHU:
        if ((event = access_event(ea, 2)).answer != 0)
            return event;
        r[rd_i] = (uint32_t)memory[ea] | (uint32_t)memory[ea + 1] << 8;
        break;
    case OP_LW:
        if ((event = access_event(ea, 4)).answer != 0)
            return event;
        r[rd_i] = get_word(memory + ea);
        break;
    case OP_SB:
        if ((event = access_event(ea, 1)).answer != 0)
            return event;
        memory[ea] = (uint8_t)r[rd_i];
        break;
    case OP_SH:
        if ((event = access_event(ea, 2)).answer != 0)
            return event;
        memory[ea] = (uint8_t)r[rd_i];
        memory[ea + 1] = (uint8_t)(r[rd_i] >> 8);
        break;
    case OP_SW:
        if ((event = access_event(ea, 4)).answer != 0)
            return event;
        put_word(memory + ea, r[rd_i]);
        break;

    /* immediate arithmetic and logic */
    case OP_ADDIO:
    case OP_SUBIO:
        exact = instruction_number(word) == OP_ADDIO ? signed_a + signed_imm : signed_a - signed_imm;
        if (overflows(exact)) {
            cause = CAUSE_OVERFLOW;
            if (overflow_unmasked)
                return stop(VAMP_INTERRUPT, cause);
        }
        r[rd_i] = (uint32_t)exact;
        break;
    case OP_ADDI: r[rd_i] = a + imm; break;
    case OP_SUBI: r[rd_i] = a - imm; break;
    case OP_ANDI: r[rd_i] = a & imm; break;
    case OP_ORI: r[rd_i] = a | imm; break;
    case OP_XORI: r[rd_i] = a ^ imm; break;
    case OP_LHGI: r[rd_i] = imm << 16; break;

    /* immediate tests */
    case OP_CLRI: r[rd_i] = 0; break;
    case OP_SGRI: r[rd_i] = signed_a > signed_imm; break;
    case OP_SEQI: r[rd_i] = signed_a == signed_imm; break;
    case OP_SGEI: r[rd_i] = signed_a >= signed_imm; break;
    case OP_SLSI: r[rd_i] = signed_a < signed_imm; break;
    case OP_SNEI: r[rd_i] = signed_a != signed_imm; break;
    case OP_SLEI: r[rd_i] = signed_a <= signed_imm; break;
    case OP_SETI: r[rd_i] = 1; break;

    /* transfers */
    case OP_BEQZ:
        if (a == 0)
            new_pc = old_pc + imm;
        break;
    case OP_BNEZ:
        if (a != 0)
            new_pc = old_pc + imm;
        break;
    case OP_JR:
        new_pc = a;
        break;
    case OP_JALR:
        new_pc = a;             /* read before R31 is written */
        r[LINK_REGISTER] = old_pc + WORD_BYTES;
        break;
    case OP_J:
        new_pc = old_pc + imm26(word);
        break;
    case OP_JAL:
        new_pc = old_pc + imm26(word);
        r[LINK_REGISTER] = old_pc + WORD_BYTES;
        break;
    case OP_TRAP:
        return stop(VAMP_INTERRUPT, CAUSE_TRAP);
    case OP_RFE:
        regs->spr[SPR_SR] = regs->spr[SPR_ESR];
        new_pc = regs->spr[SPR_EPC];
        new_dpc = regs->spr[SPR_EDPC];
        break;

    /* shifts; the left ones are the same, arithmetic or not */
    case FN_SLLI: case FN_SLAI: r[rd_r] = a << sa; break;
    case FN_SRLI: r[rd_r] = a >> sa; break;
    case FN_SRAI: r[rd_r] = shift_right_signed(a, sa); break;
    case FN_SLL: case FN_SLA: r[rd_r] = a << b_amount; break;
    case FN_SRL: r[rd_r] = a >> b_amount; break;
    case FN_SRA: r[rd_r] = shift_right_signed(a, b_amount); break;

    /* special registers */
    case FN_MOVS2I:
        r[rd_r] = special_read(regs, sa);
        break;
    case FN_MOVI2S:
        if (sa == SPR_MODE && a != 0)
            return stop(VAMP_MODE, 0);
        special_write(regs, sa, a);
        break;

    /* register arithmetic and logic */
    case FN_ADDO:
    case FN_SUBO:
        exact = instruction_number(word) == FN_ADDO ? signed_a + signed_b : signed_a - signed_b;
        if (overflows(exact)) {
            cause = CAUSE_OVERFLOW;
            if (overflow_unmasked)
                return stop(VAMP_INTERRUPT, cause);
        }
        r[rd_r] = (uint32_t)exact;
        break;
    case FN_ADD: r[rd_r] = a + b; break;
    case FN_SUB: r[rd_r] = a - b; break;
    case FN_AND: r[rd_r] = a & b; break;
    case FN_OR: r[rd_r] = a | b; break;
    case FN_XOR: r[rd_r] = a ^ b; break;
    case FN_LHG: r[rd_r] = a << 16; break;

    /* register tests */
    case FN_CLR: r[rd_r] = 0; break;
    case FN_SGR: r[rd_r] = signed_a > signed_b; break;
    case FN_SEQ: r[rd_r] = signed_a == signed_b; break;
    case FN_SGE: r[rd_r] = signed_a >= signed_b; break;
    case FN_SLS: r[rd_r] = signed_a < signed_b; break;
    case FN_SNE: r[rd_r] = signed_a != signed_b; break;
    case FN_SLE: r[rd_r] = signed_a <= signed_b; break;
    case FN_SET: r[rd_r] = 1; break;

    default:
        return stop(VAMP_INTERRUPT, CAUSE_ILLEGAL);
    }

    r[0] = 0;                   /* a write to R0 is dropped */
    regs->dpc = new_dpc;
    regs->pc = new_pc;
    return stop(VAMP_STEPPED, cause);
}

struct vamp_result vamp_run(struct vamp *machine, uint32_t limit)
{
    struct vamp_result result = {0, {VAMP_STEPPED, 0}, 0};
    while (result.steps < limit) {
        struct vamp_answer answer = vamp_step(machine);
        if (answer.answer != VAMP_STEPPED) {
            result.last = answer;
            break;
        }
        result.steps++;
        if (answer.cause != 0)
            result.masked++;
    }
    return result;
}

/* ---- the verdict line ---------------------------------------------------- */

void verdict_refused(int number, char text[VERDICT_TEXT])
{
    snprintf(text, VERDICT_TEXT, "refused %d", number);
}

void verdict_checked(const struct check_result *result, char text[VERDICT_TEXT])
{
    char word[9] = "-";         /* no word is fetched for 21 and 22 */
    if (result->answer == CHECK_OK) {
        snprintf(text, VERDICT_TEXT, "accepted %" PRIu32 " next %08" PRIX32,
                 result->steps, result->dpc);
        return;
    }
    if (result->answer >= CHECK_ILLEGAL)
        snprintf(word, sizeof word, "%08" PRIX32, result->word);
    snprintf(text, VERDICT_TEXT, "violation %d step %" PRIu32 " at %08" PRIX32 " word %s",
             result->answer, result->steps, result->dpc, word);
}

void verdict_of_card(const uint8_t *bytes, size_t length, char text[VERDICT_TEXT])
{
    static struct card card;
    static struct checker machine;
    int refusal = card_load(bytes, length, &card);
    if (refusal != REFUSED_NOT) {
        verdict_refused(refusal, text);
        return;
    }
    checker_start(&machine, &card);
    struct check_result result = checker_run(&machine, card.limit);
    verdict_checked(&result, text);
}
