/*
 * Nivoplet reference simulator: see explain.h.
 */
#include "explain.h"

#include <inttypes.h>
#include <stdio.h>

static unsigned bits_25_21(uint32_t word) { return word >> 21 & 31; }  /* RS1 of I and R */
static unsigned bits_20_16(uint32_t word) { return word >> 16 & 31; }  /* RD of I */
static unsigned bits_15_11(uint32_t word) { return word >> 11 & 31; }  /* RD of R */

/* ---- the log ------------------------------------------------------------- */

/* The general register that a step with this word writes; 0 for none. */
static unsigned written_by(uint32_t word)
{
    switch (instruction_number(word)) {
    case OP_LW:
    case OP_ADDI: case OP_LHGI: case OP_ANDI: case OP_ORI: case OP_XORI:
        return bits_20_16(word);
    case FN_MOVS2I:
    case FN_ADD: case FN_SUB: case FN_SLLI: case FN_SRLI:
    case FN_SNE: case FN_SGR: case FN_SGE:
        return bits_15_11(word);
    case OP_JAL:
        return LINK_REGISTER;
    default:                    /* sw, movi2s, beqz, bnez, jr */
        return 0;
    }
}

/* Whether the step was a taken transfer. A branch writes no register, so those after it decide as well. */
static int transferred_by(uint32_t word, const uint32_t gpr[REGISTERS])
{
    switch (instruction_number(word)) {
    case OP_JAL: case OP_JR: return 1;
    case OP_BEQZ: return gpr[bits_25_21(word)] == 0;
    case OP_BNEZ: return gpr[bits_25_21(word)] != 0;
    default: return 0;
    }
}

/* Adds the step that ran the word at this DPC and left the machine so. */
static void log_step(struct step_log *log, uint32_t dpc, const struct checker *machine)
{
    struct logged *entry = &log->steps[log->count];
    entry->dpc = dpc;
    entry->word = get_word(machine->card.code + (dpc - machine->card.code_start));
    entry->written = (uint8_t)written_by(entry->word);
    entry->transferred = (uint8_t)transferred_by(entry->word, machine->regs.gpr);
    log->count++;
}

struct check_result logged_run(struct checker *machine, uint32_t limit, struct step_log *log)
{
    struct check_result last = {0, CHECK_OK, machine->regs.dpc, 0};
    log->count = 0;
    while (last.answer == CHECK_OK && log->count < limit) {
        uint32_t dpc = machine->regs.dpc;
        last = checker_run(machine, 1);
        if (last.answer == CHECK_OK)
            log_step(log, dpc, machine);
    }
    last.steps = log->count;
    return last;
}

/* ---- the search ---------------------------------------------------------- */

/* What the register has its value from before step k: the last earlier step that wrote it, if any. */
static struct origin origin_before(uint32_t k, unsigned reg, const struct step_log *log)
{
    struct origin origin = {FROM_CARD, 0};
    if (reg == 0) {
        origin.kind = FROM_ZERO;
        return origin;
    }
    for (uint32_t step = k; step > 0; step--) {
        if (log->steps[step - 1].written == reg) {
            origin.kind = FROM_STEP;
            origin.step = step - 1;
            return origin;
        }
    }
    return origin;
}

/* 25 and 26 at step k, of this word. */
static struct because explain_access(uint32_t k, uint32_t word, const struct step_log *log)
{
    struct because because = {BECAUSE_REGISTER, 0, bits_25_21(word), {FROM_CARD, 0}};
    because.origin = origin_before(k, because.reg, log);
    return because;
}

/* 21 and 22 at step k: its DPC is the PC' that step k - 2 left. */
static struct because explain_fetch(uint32_t k, const struct step_log *log)
{
    struct because because = {BECAUSE_CARD, 0, 0, {FROM_CARD, 0}};
    if (k < 2)
        return because;
    because.step = k - 2;
    uint32_t word = log->steps[because.step].word;
    if (!log->steps[because.step].transferred) {
        because.kind = BECAUSE_RAN_ON;
    } else if (instruction_number(word) != OP_JR) {
        because.kind = BECAUSE_TRANSFER;
    } else {
        because.kind = BECAUSE_JR;
        because.reg = bits_25_21(word);
        because.origin = origin_before(because.step, because.reg, log);
    }
    return because;
}

struct because explain(const struct check_result *result, const struct step_log *log)
{
    static const struct because none = {BECAUSE_NONE, 0, 0, {FROM_CARD, 0}};
    switch (result->answer) {
    case CHECK_DPC_ALIGNMENT: case CHECK_DPC_REGION:
        return explain_fetch(result->steps, log);
    case CHECK_EA_ALIGNMENT: case CHECK_EA_REGION:
        return explain_access(result->steps, result->word, log);
    default:
        return none;
    }
}

/* ---- the second line ----------------------------------------------------- */

enum { ORIGIN_TEXT = 64 };

static void step_text(uint32_t step, const struct step_log *log, char text[ORIGIN_TEXT])
{
    snprintf(text, ORIGIN_TEXT, "from step %" PRIu32 " at %08" PRIX32 " word %08" PRIX32,
             step, log->steps[step].dpc, log->steps[step].word);
}

static void origin_text(struct origin origin, const struct step_log *log, char text[ORIGIN_TEXT])
{
    switch (origin.kind) {
    case FROM_CARD: snprintf(text, ORIGIN_TEXT, "from card"); break;
    case FROM_ZERO: snprintf(text, ORIGIN_TEXT, "from zero"); break;
    case FROM_STEP:
    default: step_text(origin.step, log, text); break;
    }
}

void because_text(const struct because *because, const struct step_log *log, char text[BECAUSE_TEXT])
{
    char transfer[ORIGIN_TEXT], origin[ORIGIN_TEXT];
    origin_text(because->origin, log, origin);
    switch (because->kind) {
    case BECAUSE_NONE:
        text[0] = '\0';
        break;
    case BECAUSE_REGISTER:
        snprintf(text, BECAUSE_TEXT, "because r%u %s", because->reg, origin);
        break;
    case BECAUSE_CARD:
        snprintf(text, BECAUSE_TEXT, "because dpc from card");
        break;
    case BECAUSE_RAN_ON:
        snprintf(text, BECAUSE_TEXT, "because dpc ran on");
        break;
    case BECAUSE_TRANSFER:
        step_text(because->step, log, transfer);
        snprintf(text, BECAUSE_TEXT, "because dpc %s", transfer);
        break;
    case BECAUSE_JR:
    default:
        step_text(because->step, log, transfer);
        snprintf(text, BECAUSE_TEXT, "because dpc %s, r%u %s", transfer, because->reg, origin);
        break;
    }
}

void because_of_card(const struct card *card, char text[BECAUSE_TEXT])
{
    static struct checker machine;
    static struct step_log log;
    checker_start(&machine, card);
    struct check_result result = logged_run(&machine, card->limit, &log);
    struct because because = explain(&result, &log);
    because_text(&because, &log, text);
}
