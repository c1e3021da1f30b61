/*
 * Nivoplet: random run cards.
 *
 *   cards [--only LETTER] [--from I] SEED N           writes a bundle of N cards
 *   cards [--only LETTER] [--from I] --stats SEED N   prints what those cards lead to
 *
 * The cards are those with the numbers I to I + N - 1 of the seed, I being 0 if
 * it is not given. Card i of a seed is always the same, whatever I and N are.
 */
#include "explain.h"
#include "isa.h"
#include "program.h"
#include "sim.h"

#include <inttypes.h>
#include <stdio.h>
#include <stdlib.h>
#include <string.h>

enum { EXIT_TROUBLE = 2 };

/* Card bytes with room for the longest faulty card. */
enum { EXTRA_BYTES = 64, CARD_ROOM = CARD_BYTES_MAX + EXTRA_BYTES };
struct card_bytes {
    uint8_t at[CARD_ROOM];
    size_t length;
};

/* ---- temperaments -------------------------------------------------------- */

/* A long run of the assembler machine's own words. */
static void draw_valid(struct draft *draft)
{
    draft->other_percent = 0;
    draft->keep_masked = chance(draft, 50);
    draft->event = EVENT_NONE;
    draw_usual_regions(draft);
    draw_registers(draft);
    draw_data(draft);
    if (chance(draft, 4))
        draw_tiny_loop(draft);
    else
        draw_program(draft);
    draft->card.limit = draw_limit(draft);
}

/* Any of the 58 words; the VAMP machine goes on where the checker stops. */
static void draw_full_set(struct draft *draft)
{
    static const unsigned shares[] = {4, 30, 60, 90};
    static const enum event events[] = {
        EVENT_23, EVENT_25, EVENT_27, EVENT_TRAP, EVENT_OVERFLOW,
        EVENT_PAST_MEMORY, EVENT_NARROW_MISALIGNED, EVENT_21, EVENT_22
    };
    draft->other_percent = shares[below(draft, 4)];
    draft->keep_masked = chance(draft, 65);
    draft->event = chance(draft, 60) ? EVENT_NONE
                                     : events[below(draft, sizeof events / sizeof events[0])];
    if (draft->event == EVENT_OVERFLOW)
        draft->keep_masked = chance(draft, 30);
    draw_usual_regions(draft);
    draw_registers(draft);
    draw_data(draft);
    draw_program(draft);
    draft->card.limit = draw_limit(draft);
}

/* Counters of the card itself that lead to 21 or 22 at step 0 or 1. */
static void spoil_counters(struct draft *draft, enum event event)
{
    struct card *card = &draft->card;
    uint32_t end = card->code_start + WORD_BYTES * card->code_words;
    const uint32_t outside[] = {end, card->code_start - WORD_BYTES, card->data_start,
                                MEMORY_BYTES, 0xFFFFFFFC, draw(draft) & ~UINT32_C(3)};
    uint32_t bad = outside[below(draft, sizeof outside / sizeof outside[0])];
    if (event == EVENT_21) {
        if (chance(draft, 50))
            bad = card->code_start;
        bad += between(draft, 1, 3);
    }
    if (chance(draft, 50)) {
        card->regs.dpc = bad;
        card->regs.pc = chance(draft, 50) ? card->code_start : value(draft);
    } else {
        card->regs.pc = bad;
        if (chance(draft, 50)) {        /* a transfer that starts from it */
            static const char *const names[] = {"jal", "beqz"};
            const struct instruction *entry = instruction_named(names[below(draft, 2)]);
            struct fields fields = {0, 0, 0, 0, (int32_t)below(draft, 65536) - 32768};
            if (chance(draft, 70))
                fields.imm &= ~3;
            put_word(card->code, make_word(entry, fields));
            card->regs.dpc = card->code_start;
        }
    }
}

/* One violation, 21 to 27, at its place in a program that is otherwise valid. */
static void draw_violation(struct draft *draft)
{
    enum event event = (enum event)between(draft, EVENT_21, EVENT_27);
    int by_counters = event <= EVENT_22 && chance(draft, 25);
    draft->other_percent = 0;
    draft->keep_masked = chance(draft, 50);
    draft->event = by_counters ? EVENT_NONE : event;
    draw_usual_regions(draft);
    draw_registers(draft);
    draw_data(draft);
    draw_program(draft);
    if (by_counters)
        spoil_counters(draft, event);
    draft->card.limit = chance(draft, 75) ? between(draft, 200, 8000) : draw_limit(draft);
    if (chance(draft, 3))       /* mostly cheap, the violation comes first */
        draft->card.limit = STEP_LIMIT_MAX;
}

/* 21, 22, 25 or 26, early or late, by each origin that its address can have. */
static void draw_origin(struct draft *draft)
{
    int brief = chance(draft, 25);
    draft->other_percent = 0;
    draft->keep_masked = chance(draft, 50);
    draft->event = EVENT_NONE;
    uint32_t code_words = brief ? between(draft, 2, 8) : between(draft, 36, 120);
    uint32_t data_words = chance(draft, 8) ? 0 : between(draft, 1, 32);
    draw_regions(draft, code_words, data_words);
    draw_registers(draft);
    draw_data(draft);
    draw_traced(draft, brief);
    if (chance(draft, 20))
        fill_unused_fields(draft);
}

static void draw_junk_fields(struct draft *draft)
{
    if (chance(draft, 60))
        draw_valid(draft);
    else
        draw_full_set(draft);
    fill_unused_fields(draft);
}

static void draw_no_plan(struct draft *draft)
{
    draft->other_percent = chance(draft, 60) ? 0 : 50;
    draft->keep_masked = chance(draft, 50);
    draft->event = EVENT_NONE;
    uint32_t code_words = between(draft, 1, 64);
    uint32_t data_words = chance(draft, 10) ? 0 : between(draft, 1, 32);
    draw_regions(draft, code_words, data_words);
    draw_registers(draft);
    draw_data(draft);
    draw_random_words(draft);
    draft->card.limit = draw_limit(draft);
    if (chance(draft, 15))
        draft->card.regs.pc = value(draft);
    if (chance(draft, 5))
        draft->card.regs.dpc = value(draft);
}

/* A short valid card, to be spoiled. */
static void draw_short(struct draft *draft)
{
    draft->other_percent = chance(draft, 70) ? 0 : 20;
    draft->keep_masked = 1;
    draft->event = EVENT_NONE;
    uint32_t code_words = chance(draft, 10) ? REGION_WORDS_MAX : between(draft, 8, 60);
    uint32_t data_words = chance(draft, 10) ? REGION_WORDS_MAX : below(draft, 20);
    if (chance(draft, 15))
        data_words = 0;
    draw_regions(draft, code_words, data_words);
    draw_registers(draft);
    draw_data(draft);
    draw_program(draft);
    draft->card.limit = chance(draft, 80) ? below(draft, 500) : draw_limit(draft);
}

/* ---- faults of a card ---------------------------------------------------- */

static uint32_t over(struct draft *draft, uint32_t most)
{
    switch (below(draft, 5)) {
    case 0:
    case 4: return most + 1;
    case 1: return 0xFFFFFFFF;
    case 2: return most + 1 + below(draft, 1000);
    default: return UINT32_C(0x80000000) | draw(draft);
    }
}

/* A count of 0 or over 1,024, at times with the length to match. */
static void fault_counts(struct draft *draft, struct card_bytes *bytes)
{
    uint32_t code_words = get_word(bytes->at + CARD_CODE_WORDS);
    uint32_t data_words = get_word(bytes->at + CARD_DATA_WORDS);
    int in_data = chance(draft, 40);
    if (in_data)
        data_words = over(draft, REGION_WORDS_MAX);
    else
        code_words = chance(draft, 50) ? 0 : over(draft, REGION_WORDS_MAX);
    put_word(bytes->at + CARD_CODE_WORDS, code_words);
    put_word(bytes->at + CARD_DATA_WORDS, data_words);
    uint64_t fitting = CARD_BODY + UINT64_C(4) * code_words + UINT64_C(4) * data_words;
    if (fitting <= CARD_ROOM && chance(draft, 60))
        bytes->length = (size_t)fitting;
}

static void fault_length(struct draft *draft, struct card_bytes *bytes)
{
    size_t place = chance(draft, 50) ? CARD_CODE_WORDS : CARD_DATA_WORDS;
    uint32_t count = get_word(bytes->at + place);
    switch (below(draft, 4)) {
    case 0:
        bytes->length += between(draft, 1, 8);
        break;
    case 1:
        if (bytes->length > CARD_BODY)
            bytes->length -= between(draft, 1, (uint32_t)(bytes->length - CARD_BODY));
        break;
    case 2:
        put_word(bytes->at + place, count < REGION_WORDS_MAX ? count + 1 : count - 1);
        break;
    default:
        put_word(bytes->at + place, count > 1 ? count - 1 : count + 1);
        break;
    }
    if (bytes->length > CARD_ROOM)
        bytes->length = CARD_ROOM;
}

static void fault_alignment(struct draft *draft, struct card_bytes *bytes)
{
    size_t place = chance(draft, 50) ? CARD_CODE_START : CARD_DATA_START;
    put_word(bytes->at + place, get_word(bytes->at + place) + between(draft, 1, 3));
}

static void fault_end(struct draft *draft, struct card_bytes *bytes)
{
    int in_code = chance(draft, 50);
    uint32_t words = get_word(bytes->at + (in_code ? CARD_CODE_WORDS : CARD_DATA_WORDS));
    uint32_t size = WORD_BYTES * words;
    uint32_t start;
    switch (below(draft, 4)) {
    case 0: start = MEMORY_BYTES - size + WORD_BYTES; break;        /* one word too far */
    case 1: start = 0 - size; break;                                /* the sum wraps to 0 */
    case 2: start = 0xFFFFFFFC; break;
    default: start = (MEMORY_BYTES + draw(draft)) & ~UINT32_C(3); break;
    }
    put_word(bytes->at + (in_code ? CARD_CODE_START : CARD_DATA_START), start);
}

/* The regions share one word, some or all. */
static void fault_overlap(struct draft *draft, struct card_bytes *bytes)
{
    uint32_t code_start = get_word(bytes->at + CARD_CODE_START);
    uint32_t code_words = get_word(bytes->at + CARD_CODE_WORDS);
    uint32_t data_words = get_word(bytes->at + CARD_DATA_WORDS);
    uint32_t start;
    switch (below(draft, 3)) {
    case 0: start = code_start; break;
    case 1: start = code_start + WORD_BYTES * (code_words - 1); break;      /* its last word */
    default: start = code_start - WORD_BYTES * (data_words - 1); break;     /* its first word */
    }
    put_word(bytes->at + CARD_DATA_START, start);
}

static void fault_registers(struct draft *draft, struct card_bytes *bytes)
{
    uint32_t bad = chance(draft, 50) ? UINT32_C(1) << below(draft, 32) : draw(draft) | 1;
    size_t place = CARD_GPR;
    if (chance(draft, 70)) {
        uint32_t number = chance(draft, 30) ? SPR_MODE : between(draft, SPR_EMODE + 1, REGISTERS - 1);
        place = CARD_SPR + WORD_BYTES * number;
    }
    put_word(bytes->at + place, bad);
}

/* Changes one byte of a field. */
static void fault_byte(struct draft *draft, struct card_bytes *bytes, uint32_t field, uint32_t size)
{
    uint32_t place = field + below(draft, size);
    bytes->at[place] ^= (uint8_t)between(draft, 1, 255);
}

static void add_fault(struct draft *draft, struct card_bytes *bytes, int number)
{
    switch (number) {
    case REFUSED_SHORT: bytes->length = chance(draft, 30) ? CARD_BODY - 1 : below(draft, CARD_BODY); break;
    case REFUSED_MARK: fault_byte(draft, bytes, CARD_MARK, 3); break;
    case REFUSED_VERSION: fault_byte(draft, bytes, CARD_VERSION, 2); break;
    case REFUSED_ZEROS: fault_byte(draft, bytes, CARD_ZEROS, 3); break;
    case REFUSED_COUNTS: fault_counts(draft, bytes); break;
    case REFUSED_LENGTH: fault_length(draft, bytes); break;
    case REFUSED_ALIGNMENT: fault_alignment(draft, bytes); break;
    case REFUSED_END: fault_end(draft, bytes); break;
    case REFUSED_OVERLAP: fault_overlap(draft, bytes); break;
    case REFUSED_REGISTERS: fault_registers(draft, bytes); break;
    case REFUSED_LIMIT: put_word(bytes->at + CARD_LIMIT, over(draft, STEP_LIMIT_MAX)); break;
    }
}

/* One fault, and none, one or two that are tested later or as well. */
static void spoil_card(struct draft *draft, struct card_bytes *bytes)
{
    int first = (int)between(draft, REFUSED_SHORT, REFUSED_LIMIT);
    uint32_t more = below(draft, 3);
    for (uint32_t i = 0; i < more; i++) {
        int low = chance(draft, 80) ? first : REFUSED_SHORT;
        add_fault(draft, bytes, (int)between(draft, (uint32_t)low, REFUSED_LIMIT));
    }
    add_fault(draft, bytes, first);
}

static void mutate_card(struct draft *draft, struct card_bytes *bytes)
{
    uint32_t times = between(draft, 1, 6);
    for (uint32_t i = 0; i < times; i++) {
        uint32_t place = chance(draft, 15) ? below(draft, CARD_BODY)
                                           : below(draft, (uint32_t)bytes->length);
        if (chance(draft, 60))
            bytes->at[place] ^= (uint8_t)(1u << below(draft, 8));
        else
            bytes->at[place] = (uint8_t)draw(draft);
    }
    if (chance(draft, 5))
        fault_length(draft, bytes);
}

/* ---- cards --------------------------------------------------------------- */

enum { TEMPERAMENTS = 8 };
static const char letters[TEMPERAMENTS + 1] = "abcdefgh";

/* Of 100 cards. The order counts: a share that is cut in two leaves the cards of all others as they are. */
static const struct { char letter; unsigned weight; } shares[TEMPERAMENTS] = {
    {'a', 14}, {'h', 8}, {'b', 22}, {'c', 20}, {'d', 13}, {'e', 8}, {'f', 8}, {'g', 7}
};

static char draw_letter(struct draft *draft)
{
    uint32_t dice = below(draft, 100);
    for (int i = 0; i < TEMPERAMENTS; i++) {
        if (dice < shares[i].weight)
            return shares[i].letter;
        dice -= shares[i].weight;
    }
    return letters[0];
}

/* Makes card number i of a seed; answers its temperament. */
static char make_card(uint64_t seed, uint64_t i, char only, struct card_bytes *bytes)
{
    static struct draft draft;
    memset(&draft, 0, sizeof draft);
    memset(bytes, 0, sizeof *bytes);
    draft.random = seed * UINT64_C(0xD1342543DE82EF95) + i;
    uint64_t high = draw(&draft);
    uint64_t low = draw(&draft);
    draft.random = high << 32 | low;
    char letter = draw_letter(&draft);
    if (only != 0)
        letter = only;
    switch (letter) {
    case 'a': draw_valid(&draft); break;
    case 'b': draw_full_set(&draft); break;
    case 'c': draw_violation(&draft); break;
    case 'd': draw_short(&draft); break;
    case 'e': if (chance(&draft, 60)) draw_short(&draft); else draw_full_set(&draft); break;
    case 'f': draw_junk_fields(&draft); break;
    case 'h': draw_origin(&draft); break;
    default: draw_no_plan(&draft); break;
    }
    bytes->length = card_write(&draft.card, bytes->at);
    if (letter == 'd')
        spoil_card(&draft, bytes);
    if (letter == 'e')
        mutate_card(&draft, bytes);
    return letter;
}

/* Which cards are made. */
struct choice {
    uint64_t seed, from, count;
    char only;                                  /* a temperament, or 0 for all */
};

static int write_bundle(struct choice choice)
{
    static struct card_bytes bytes;
    for (uint64_t i = 0; i < choice.count; i++) {
        uint8_t length[WORD_BYTES];
        make_card(choice.seed, choice.from + i, choice.only, &bytes);
        put_word(length, (uint32_t)bytes.length);
        if (fwrite(length, 1, sizeof length, stdout) != sizeof length ||
            fwrite(bytes.at, 1, bytes.length, stdout) != bytes.length) {
            fprintf(stderr, "cards: cannot write the bundle\n");
            return EXIT_TROUBLE;
        }
    }
    return fflush(stdout) == 0 ? 0 : EXIT_TROUBLE;
}

/* ---- statistics ---------------------------------------------------------- */

enum { LATE_STEP = 100 };

/*
 * The explanations there can be, by violation. No 21 ran on, since PC' + 4 is a
 * multiple of 4 where PC' is; nor is one by jr r0, or by jr to a link.
 */
static const char *const explanations[] = {
    "21 dpc from card", "21 dpc from jal", "21 dpc from beqz", "21 dpc from bnez",
    "21 dpc from jr, register from card", "21 dpc from jr, register from lw", "21 dpc from jr, register from sum",
    "22 dpc from card", "22 dpc ran on", "22 dpc from jal", "22 dpc from beqz", "22 dpc from bnez",
    "22 dpc from jr, register from card", "22 dpc from jr, register from zero",
    "22 dpc from jr, register from lw", "22 dpc from jr, register from jal", "22 dpc from jr, register from sum",
    "25 register from card", "25 register from zero", "25 register from lw", "25 register from jal",
    "25 register from sum",
    "26 register from card", "26 register from zero", "26 register from lw", "26 register from jal",
    "26 register from sum",
};
enum { EXPLANATIONS = sizeof explanations / sizeof explanations[0] };

struct counts {
    uint64_t temperament[TEMPERAMENTS];
    uint64_t verdict[CHECK_MODE + 1];           /* by refusal or violation, 0 accepted */
    uint64_t vamp_answer[VAMP_MODE + 1];
    uint64_t cause[32];                         /* bit of the stopping cause */
    uint64_t masked_cards;                      /* cards with a masked overflow */
    uint64_t masked_steps;
    uint64_t checker_steps, vamp_steps;
    uint64_t late_violations;                   /* at LATE_STEP or later */
    uint64_t explained[EXPLANATIONS];
    uint64_t explained_late[EXPLANATIONS];      /* of them at LATE_STEP or later */
    uint64_t explained_otherwise;               /* as no entry of the list says */
    uint64_t in_slot;                           /* the named transfer stands in a delay slot */
    uint64_t slot_transfers;                    /* its own delay slot has a taken transfer */
    uint64_t slot_writes;                       /* the delay slot of jr writes its register */
    uint64_t refused;
    uint64_t disagreements;
    uint64_t checker_runs[INSTRUCTION_NUMBERS]; /* by instruction number */
    uint64_t vamp_runs[INSTRUCTION_NUMBERS];
};

/* The data, the code and the rest of the VAMP's memory are as the checker has them. */
static int same_memory(const struct checker *checker, const struct vamp *vamp)
{
    static struct vamp expected;
    struct card card = checker->card;
    memcpy(card.data, checker->data, sizeof card.data);
    vamp_start(&expected, &card);
    return memcmp(expected.memory, vamp->memory, sizeof expected.memory) == 0;
}

/*
 * Runs the checker, with the VAMP machine beside it: each accepted step must
 * be a VAMP step without cause, to the same registers, and memory must agree.
 */
static void count_checked_run(struct checker *checker, struct vamp *vamp, struct counts *counts)
{
    uint32_t steps = 0;
    int answer = CHECK_OK;
    int agree = 1;
    while (steps < checker->card.limit) {
        uint32_t dpc = checker->regs.dpc;
        answer = checker_step(checker);
        if (answer != CHECK_OK)
            break;
        struct vamp_answer stepped = vamp_step(vamp);
        agree = agree && stepped.answer == VAMP_STEPPED && stepped.cause == 0 &&
                memcmp(&checker->regs, &vamp->regs, sizeof vamp->regs) == 0;
        uint32_t word = get_word(checker->card.code + (dpc - checker->card.code_start));
        counts->checker_runs[instruction_number(word)]++;
        steps++;
    }
    if (!agree || !same_memory(checker, vamp))
        counts->disagreements++;
    counts->verdict[answer]++;
    counts->checker_steps += steps;
    counts->late_violations += answer != CHECK_OK && steps >= LATE_STEP;
}

/* A sum is any word that writes a register, but lw and jal. */
static const char *origin_name(struct origin origin, const struct step_log *log)
{
    if (origin.kind != FROM_STEP)
        return origin.kind == FROM_ZERO ? "zero" : "card";
    switch (instruction_number(log->steps[origin.step].word)) {
    case OP_LW: return "lw";
    case OP_JAL: return "jal";
    default: return "sum";
    }
}

/* What the list calls an explanation. */
enum { KIND_TEXT = 64 };
static void kind_text(int violation, const struct because *because, const struct step_log *log, char text[KIND_TEXT])
{
    const char *origin = origin_name(because->origin, log);
    switch (because->kind) {
    case BECAUSE_CARD: snprintf(text, KIND_TEXT, "%d dpc from card", violation); break;
    case BECAUSE_RAN_ON: snprintf(text, KIND_TEXT, "%d dpc ran on", violation); break;
    case BECAUSE_TRANSFER:
        snprintf(text, KIND_TEXT, "%d dpc from %s", violation, instruction_of(log->steps[because->step].word)->name);
        break;
    case BECAUSE_JR: snprintf(text, KIND_TEXT, "%d dpc from jr, register from %s", violation, origin); break;
    default: snprintf(text, KIND_TEXT, "%d register from %s", violation, origin); break;
    }
}

/* What stands around a named transfer, whose delay slot was the last step. */
static void count_slots(const struct because *because, const struct step_log *log, struct counts *counts)
{
    const struct logged *slot = &log->steps[because->step + 1];
    if (because->kind != BECAUSE_TRANSFER && because->kind != BECAUSE_JR)
        return;
    counts->in_slot += because->step > 0 && log->steps[because->step - 1].transferred;
    counts->slot_transfers += slot->transferred;
    counts->slot_writes += because->kind == BECAUSE_JR && because->reg != 0 && slot->written == because->reg;
}

static void count_explanation(const struct card *card, struct counts *counts)
{
    static struct checker checker;
    static struct step_log log;
    char text[KIND_TEXT];
    checker_start(&checker, card);
    struct check_result result = logged_run(&checker, card->limit, &log);
    struct because because = explain(&result, &log);
    if (because.kind == BECAUSE_NONE)
        return;
    count_slots(&because, &log, counts);
    kind_text(result.answer, &because, &log, text);
    for (int i = 0; i < EXPLANATIONS; i++) {
        if (strcmp(text, explanations[i]) == 0) {
            counts->explained[i]++;
            counts->explained_late[i] += result.steps >= LATE_STEP;
            return;
        }
    }
    counts->explained_otherwise++;
}

static void count_vamp_run(struct vamp *vamp, uint32_t limit, struct counts *counts)
{
    struct vamp_answer last = {VAMP_STEPPED, 0};
    uint64_t masked = 0;
    uint32_t steps = 0;
    while (steps < limit) {
        uint32_t dpc = vamp->regs.dpc;
        uint32_t word = dpc % WORD_BYTES == 0 && dpc < MEMORY_BYTES ? get_word(vamp->memory + dpc) : 0;
        last = vamp_step(vamp);
        if (last.answer != VAMP_STEPPED)
            break;
        counts->vamp_runs[instruction_number(word)]++;
        masked += last.cause != 0;
        steps++;
    }
    counts->vamp_answer[last.answer]++;
    if (last.answer == VAMP_INTERRUPT)
        for (int bit = 0; bit < 32; bit++)
            counts->cause[bit] += last.cause >> bit & 1;
    counts->masked_cards += masked > 0;
    counts->masked_steps += masked;
    counts->vamp_steps += steps;
}

static void count_card(const struct card_bytes *bytes, struct counts *counts)
{
    static struct card card;
    static struct checker checker;
    static struct vamp vamp;
    int refusal = card_load(bytes->at, bytes->length, &card);
    if (refusal != REFUSED_NOT) {
        counts->verdict[refusal]++;
        counts->refused++;
        return;
    }
    checker_start(&checker, &card);
    vamp_start(&vamp, &card);
    count_checked_run(&checker, &vamp, counts);
    count_explanation(&card, counts);
    vamp_start(&vamp, &card);
    count_vamp_run(&vamp, card.limit, counts);
}

static void print_instructions(const struct counts *counts)
{
    puts("instruction   checker steps     vamp steps");
    for (int i = 0; i < INSTRUCTIONS; i++) {
        const struct instruction *entry = &instruction_table[i];
        unsigned number = entry->opcode == 0 ? FUNCTION_BASE + entry->function : entry->opcode;
        printf("%-10s %16" PRIu64 " %14" PRIu64 "\n", entry->name,
               counts->checker_runs[number], counts->vamp_runs[number]);
    }
}

static void print_explanations(const struct counts *counts)
{
    for (int i = 0; i < EXPLANATIONS; i++)
        printf("explained %s: at step %d or later %" PRIu64 ", all %" PRIu64 "\n", explanations[i], LATE_STEP,
               counts->explained_late[i], counts->explained[i]);
    printf("explained by a transfer in a delay slot %" PRIu64 "\n", counts->in_slot);
    printf("explained by a transfer with one in its delay slot %" PRIu64 "\n", counts->slot_transfers);
    printf("explained by a jr whose delay slot writes its register %" PRIu64 "\n", counts->slot_writes);
    printf("explained otherwise %" PRIu64 "\n", counts->explained_otherwise);
}

static void print_counts(const struct counts *counts, uint64_t cards)
{
    uint64_t run = cards - counts->refused;
    printf("cards %" PRIu64 ", of them run %" PRIu64 "\n", cards, run);
    for (int i = 0; i < TEMPERAMENTS; i++)
        printf("temperament %c %" PRIu64 "\n", letters[i], counts->temperament[i]);
    for (int i = REFUSED_SHORT; i <= REFUSED_LIMIT; i++)
        printf("refused %d %" PRIu64 "\n", i, counts->verdict[i]);
    printf("accepted %" PRIu64 "\n", counts->verdict[CHECK_OK]);
    for (int i = CHECK_DPC_ALIGNMENT; i <= CHECK_MODE; i++)
        printf("violation %d %" PRIu64 "\n", i, counts->verdict[i]);
    printf("violations at step %d or later %" PRIu64 "\n", LATE_STEP, counts->late_violations);
    print_explanations(counts);
    printf("vamp stepped to the limit %" PRIu64 "\n", counts->vamp_answer[VAMP_STEPPED]);
    printf("vamp 31 %" PRIu64 "\n", counts->vamp_answer[VAMP_INTERRUPT]);
    for (int bit = 0; bit < 32; bit++)
        if (counts->cause[bit] != 0)
            printf("vamp 31 cause bit %d %" PRIu64 "\n", bit, counts->cause[bit]);
    printf("vamp 32 %" PRIu64 "\n", counts->vamp_answer[VAMP_PAST_MEMORY]);
    printf("vamp 33 %" PRIu64 "\n", counts->vamp_answer[VAMP_MODE]);
    printf("vamp masked overflow: cards %" PRIu64 ", steps %" PRIu64 "\n",
           counts->masked_cards, counts->masked_steps);
    printf("steps a card: checker %" PRIu64 ", vamp %" PRIu64 "\n",
           cards == 0 ? 0 : counts->checker_steps / cards, cards == 0 ? 0 : counts->vamp_steps / cards);
    printf("cards on which the machines disagree %" PRIu64 "\n", counts->disagreements);
    print_instructions(counts);
}

static int print_stats(struct choice choice)
{
    static struct counts counts;
    static struct card_bytes bytes;
    for (uint64_t i = 0; i < choice.count; i++) {
        char letter = make_card(choice.seed, choice.from + i, choice.only, &bytes);
        counts.temperament[letter - letters[0]]++;
        count_card(&bytes, &counts);
    }
    print_counts(&counts, choice.count);
    return counts.disagreements == 0 && counts.explained_otherwise == 0 ? 0 : 1;
}

/* ---- the call ------------------------------------------------------------ */

static int usage(void)
{
    fprintf(stderr, "usage: cards [--only a|b|c|d|e|f|g|h] [--from I] [--stats] SEED N\n");
    return EXIT_TROUBLE;
}

static int read_number(const char *text, uint64_t *number)
{
    char *end;
    *number = strtoull(text, &end, 10);
    return *text >= '0' && *text <= '9' && *end == '\0';
}

int main(int argc, char **argv)
{
    struct choice choice = {0, 0, 0, 0};
    int stats = 0;
    int i = 1;

    for (; i < argc && strncmp(argv[i], "--", 2) == 0; i++) {
        if (strcmp(argv[i], "--stats") == 0) {
            stats = 1;
        } else if (strcmp(argv[i], "--only") == 0 && i + 1 < argc) {
            choice.only = argv[++i][0];
            if (choice.only == 0 || strchr(letters, choice.only) == NULL)
                return usage();
        } else if (strcmp(argv[i], "--from") == 0 && i + 1 < argc) {
            if (!read_number(argv[++i], &choice.from))
                return usage();
        } else {
            return usage();
        }
    }
    if (argc - i != 2 || !read_number(argv[i], &choice.seed) ||
        !read_number(argv[i + 1], &choice.count))
        return usage();
    return stats ? print_stats(choice) : write_bundle(choice);
}
