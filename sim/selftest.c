/*
 * Nivoplet reference simulator: the hand-checked cases of document 01, then
 * further cases for its rulings and its list of traps for the builder, and
 * for the explanations and the touched registers of document 02.
 */
#include "selftest.h"
#include "explain.h"
#include "isa.h"
#include "sim.h"

#include <inttypes.h>
#include <stdio.h>
#include <string.h>

static int cases;
static int failures;

static void check(int good, const char *name)
{
    cases++;
    if (!good)
        failures++;
    printf("%-4s %s\n", good ? "ok" : "FAIL", name);
}

/* ---- small cards --------------------------------------------------------- */

/* The card of the document's whole case, with nops for its words. */
static struct card plain_card(void)
{
    struct card card;
    memset(&card, 0, sizeof card);
    card.code_start = 0;
    card.code_words = 3;
    card.data_start = 256;
    card.data_words = 4;
    card.limit = 10;
    card.regs.dpc = 0;
    card.regs.pc = 4;
    return card;
}

static void set_code(struct card *card, uint32_t index, uint32_t word)
{
    put_word(card->code + WORD_BYTES * index, word);
}

static void set_data(struct card *card, uint32_t index, uint32_t word)
{
    put_word(card->data + WORD_BYTES * index, word);
}

/* A plain card whose first word is this one. */
static struct card card_of(uint32_t word)
{
    struct card card = plain_card();
    set_code(&card, 0, word);
    return card;
}

static uint32_t word_of(const char *name, unsigned rd, unsigned rs1, unsigned rs2,
                        unsigned sa, int32_t imm)
{
    struct fields fields = {rd, rs1, rs2, sa, imm};
    return make_word(instruction_named(name), fields);
}

/* One step on both machines. */
struct pair {
    struct checker checker;
    struct vamp vamp;
    int checked;
    struct vamp_answer stepped;
};

static void step_pair(struct pair *pair, const struct card *card)
{
    checker_start(&pair->checker, card);
    pair->checked = checker_step(&pair->checker);
    vamp_start(&pair->vamp, card);
    pair->stepped = vamp_step(&pair->vamp);
}

static int same_registers(const struct registers *a, const struct registers *b)
{
    return memcmp(a, b, sizeof *a) == 0;
}

/* Both machines stepped without event and left this value in the register. */
static int both_give(const struct card *card, unsigned reg, uint32_t value)
{
    static struct pair pair;
    step_pair(&pair, card);
    return pair.checked == CHECK_OK && pair.stepped.answer == VAMP_STEPPED &&
           pair.stepped.cause == 0 && pair.checker.regs.gpr[reg] == value &&
           same_registers(&pair.checker.regs, &pair.vamp.regs);
}

/* Both machines stepped and left these counters. */
static int both_counters(const struct card *card, uint32_t dpc, uint32_t pc)
{
    static struct pair pair;
    step_pair(&pair, card);
    return pair.checked == CHECK_OK && pair.stepped.answer == VAMP_STEPPED &&
           pair.checker.regs.dpc == dpc && pair.checker.regs.pc == pc &&
           same_registers(&pair.checker.regs, &pair.vamp.regs);
}

/* The VAMP machine alone stepped with this cause and register value. */
static int vamp_gives(const struct card *card, uint32_t cause, unsigned reg, uint32_t value)
{
    static struct vamp vamp;
    vamp_start(&vamp, card);
    struct vamp_answer answer = vamp_step(&vamp);
    return answer.answer == VAMP_STEPPED && answer.cause == cause && vamp.regs.gpr[reg] == value;
}

/* The VAMP machine stopped with this answer and changed nothing. */
static int vamp_stops(const struct card *card, int number, uint32_t cause)
{
    static struct vamp before, vamp;
    vamp_start(&before, card);
    vamp = before;
    struct vamp_answer answer = vamp_step(&vamp);
    return answer.answer == number && answer.cause == cause &&
           memcmp(&before, &vamp, sizeof vamp) == 0;
}

/* The checker stopped with this violation and changed nothing. */
static int checker_stops(const struct card *card, int number)
{
    static struct checker before, checker;
    checker_start(&before, card);
    checker_start(&checker, card);
    int answer = checker_step(&checker);
    return answer == number && same_registers(&before.regs, &checker.regs) &&
           memcmp(before.data, checker.data, sizeof before.data) == 0;
}

static int verdict_is(const struct card *card, const char *expected)
{
    static uint8_t bytes[CARD_BYTES_MAX];
    char text[VERDICT_TEXT];
    size_t length = card_write(card, bytes);
    verdict_of_card(bytes, length, text);
    if (strcmp(text, expected) != 0)
        printf("     got '%s', expected '%s'\n", text, expected);
    return strcmp(text, expected) == 0;
}

/* The verdict line, and the second line or an empty text for none. */
static int explained_is(const struct card *card, const char *verdict, const char *expected)
{
    char text[BECAUSE_TEXT];
    because_of_card(card, text);
    if (strcmp(text, expected) != 0)
        printf("     got '%s', expected '%s'\n", text, expected);
    return verdict_is(card, verdict) && strcmp(text, expected) == 0;
}

/* ---- the cases of document 01 -------------------------------------------- */

static void document_words(void)
{
    static const struct {
        uint32_t word;
        const char *text;
        const char *name;
        struct fields fields;
    } list[] = {
        {0x2401FFFC, "addi r1,r0,-4", "addi", {1, 0, 0, 0, -4}},
        {0x8C220008, "lw r2,r1(8)", "lw", {2, 1, 0, 0, 8}},
        {0x0022182B, "sge r3,r1,r2", "sge", {3, 1, 2, 0, 0}},
        {0x00200411, "movi2s SPR[16],r1", "movi2s", {0, 1, 0, 16, 0}},
        {0x5BE00000, "jr r31", "jr", {0, 31, 0, 0, 0}},
        {0xF8000005, "trap 5", "trap", {0, 0, 0, 0, 5}},
        {0x00430820, "addo r1,r2,r3", "addo", {1, 2, 3, 0, 0}},
    };
    for (size_t i = 0; i < sizeof list / sizeof list[0]; i++) {
        char text[INSTRUCTION_TEXT], name[80];
        instruction_text(list[i].word, text);
        snprintf(name, sizeof name, "* %08" PRIX32 " is %s", list[i].word, list[i].text);
        check(strcmp(text, list[i].text) == 0 &&
              make_word(instruction_named(list[i].name), list[i].fields) == list[i].word, name);
    }
}

static void document_steps(void)
{
    struct card card = card_of(0x0022182B);
    card.regs.gpr[1] = 0x80000000;
    card.regs.gpr[2] = 1;
    card.regs.gpr[3] = 7;
    check(both_give(&card, 3, 0), "* sge of 80000000 and 1 gives 0");
    card.regs.gpr[1] = 2;
    check(both_give(&card, 3, 1), "* sge of 2 and 1 gives 1");

    card = card_of(word_of("andi", 2, 1, 0, 0, -32768));
    card.regs.gpr[1] = 0xFFFFFFFF;
    check(get_word(card.code) == 0x30228000 && both_give(&card, 2, 0xFFFF8000),
          "* andi of FFFFFFFF with imm field 8000 gives FFFF8000");

    card = card_of(0x0C000008);
    check(both_counters(&card, 4, 12) && both_give(&card, 31, 8),
          "* jal 8 at DPC 0, PC' 4: DPC 4, PC' 12, R31 = 8");

    card = plain_card();
    for (uint32_t i = 0; i < card.code_words; i++)
        set_code(&card, i, 0x1000FFFC);
    int good = 1;
    for (uint32_t a = 0; a < WORD_BYTES * card.code_words; a += WORD_BYTES) {
        card.regs.dpc = a;
        card.regs.pc = a + 4;
        good = good && both_counters(&card, a + 4, a);
    }
    check(good, "beqz r0,-4 at a, PC' = a + 4: PC' becomes a");

    card = card_of(0x00430820);
    card.regs.gpr[2] = 0x7FFFFFFF;
    card.regs.gpr[3] = 1;
    check(vamp_gives(&card, 64, 1, 0x80000000), "addo of 7FFFFFFF and 1, SR 0: 80000000, CA 64");
    card.regs.spr[SPR_SR] = 64;
    check(vamp_stops(&card, VAMP_INTERRUPT, 64), "addo of 7FFFFFFF and 1, SR 64: answer 31, CA 64");
}

static void document_regions(void)
{
    static const struct { int32_t ea; int answer; } list[] = {
        {268, CHECK_OK}, {272, CHECK_EA_REGION}, {270, CHECK_EA_ALIGNMENT},
        {274, CHECK_EA_ALIGNMENT},
    };
    for (size_t i = 0; i < sizeof list / sizeof list[0]; i++) {
        char name[80];
        struct card load = card_of(word_of("lw", 2, 0, 0, 0, list[i].ea));
        struct card store = card_of(word_of("sw", 2, 0, 0, 0, list[i].ea));
        int good;
        set_data(&load, 3, 0xCAFE0003);
        if (list[i].answer == CHECK_OK) {
            static struct pair pair;
            store.regs.gpr[2] = 0x12345678;
            step_pair(&pair, &store);
            good = both_give(&load, 2, 0xCAFE0003) && pair.checked == CHECK_OK &&
                   get_word(pair.checker.data + 12) == 0x12345678 &&
                   get_word(pair.vamp.memory + list[i].ea) == 0x12345678;
        } else {
            good = checker_stops(&load, list[i].answer) && checker_stops(&store, list[i].answer);
        }
        snprintf(name, sizeof name, "data start 256, four words: ea %" PRId32 " answers %d (lw and sw)",
                 list[i].ea, list[i].answer);
        check(good, name);
    }
}

static void document_whole_case(void)
{
    struct card card = plain_card();
    set_code(&card, 0, 0x2401FFFC);
    set_code(&card, 1, 0x8C220008);
    check(verdict_is(&card, "violation 26 step 1 at 00000004 word 8C220008"), "the whole case");
    check(both_give(&card, 1, 0xFFFFFFFC), "the whole case: R1 is FFFFFFFC");
    check(explained_is(&card, "violation 26 step 1 at 00000004 word 8C220008",
                       "because r1 from step 0 at 00000000 word 2401FFFC"), "the whole case: its explanation");
}

/* ---- further cases: words ------------------------------------------------ */

static void more_words(void)
{
    int legal = 0, assembler = 0, agree = 1;
    for (uint32_t opcode = 0; opcode < 64; opcode++) {
        for (uint32_t function = 0; function < 64; function++) {
            struct card card = card_of(opcode << 26 | function);
            static struct pair pair;
            const struct instruction *entry = instruction_of(opcode << 26 | function);
            step_pair(&pair, &card);
            int says_illegal = pair.checked == CHECK_ILLEGAL;
            int says_other = pair.checked == CHECK_NOT_ASSEMBLER;
            int vamp_illegal = pair.stepped.answer == VAMP_INTERRUPT &&
                               pair.stepped.cause == CAUSE_ILLEGAL;
            agree = agree && says_illegal == (entry == NULL) && vamp_illegal == (entry == NULL) &&
                    says_other == (entry != NULL && !entry->assembler);
            if (opcode == 0 || function == 0) {
                legal += entry != NULL;
                assembler += entry != NULL && entry->assembler;
            }
        }
    }
    check(legal == INSTRUCTIONS && assembler == ASSEMBLER_INSTRUCTIONS,
          "58 legal words, 20 of them the assembler machine's");
    check(agree, "both machines and the table agree on every opcode and function");

    char text[INSTRUCTION_TEXT];
    instruction_text(0, text);
    check(strcmp(text, "slli r0,r0,0") == 0, "word 0 is slli r0,r0,0");
}

/* Every bit a legal word does not use leaves the step as it is. */
static void more_unused_fields(void)
{
    int good = 1;
    for (int i = 0; i < INSTRUCTIONS; i++) {
        const struct instruction *entry = &instruction_table[i];
        struct fields fields = {5, 1, 2, 7, 8};
        uint32_t word = make_word(entry, fields);
        struct card clean = card_of(word);
        clean.regs.gpr[1] = 256;
        clean.regs.gpr[2] = 0x80000003;
        clean.regs.gpr[5] = 0x11223344;
        clean.regs.spr[SPR_IEEEF] = 0x55667788;
        clean.regs.spr[SPR_EDPC] = 64;
        set_data(&clean, 2, 0x89ABCDEF);
        struct card junk = clean;
        set_code(&junk, 0, word | ~used_bits(entry));

        static struct pair a, b;
        step_pair(&a, &clean);
        step_pair(&b, &junk);
        put_word(b.vamp.memory, word);
        good = good && a.checked == b.checked && a.stepped.answer == b.stepped.answer &&
               a.stepped.cause == b.stepped.cause &&
               same_registers(&a.checker.regs, &b.checker.regs) &&
               memcmp(&a.vamp, &b.vamp, sizeof a.vamp) == 0 &&
               memcmp(a.checker.data, b.checker.data, sizeof a.checker.data) == 0;
    }
    check(good, "unused fields may hold anything");
}

/* ---- further cases: steps ------------------------------------------------ */

struct binary_case {
    const char *name;
    uint32_t a, b;              /* RS1, and RS2 or the immediate */
    uint32_t value;
};

static void more_register_operations(void)
{
    static const struct binary_case list[] = {
        {"add", 0xFFFFFFFF, 2, 1}, {"sub", 1, 2, 0xFFFFFFFF},
        {"and", 0xF0F0F0F0, 0xFF00FF00, 0xF000F000}, {"or", 0xF0F0F0F0, 0xFF00FF00, 0xFFF0FFF0},
        {"xor", 0xF0F0F0F0, 0xFF00FF00, 0x0FF00FF0}, {"lhg", 0xABCD1234, 0, 0x12340000},
        {"clr", 5, 5, 0}, {"set", 5, 6, 1},
        {"sgr", 0x80000000, 1, 0}, {"sgr", 1, 0x80000000, 1}, {"sgr", 3, 3, 0},
        {"sge", 3, 3, 1}, {"sge", 0x7FFFFFFF, 0xFFFFFFFF, 1},
        {"sls", 0x80000000, 1, 1}, {"sls", 3, 3, 0}, {"sle", 3, 3, 1},
        {"sle", 1, 0x80000000, 0}, {"seq", 3, 3, 1}, {"seq", 3, 4, 0},
        {"sne", 3, 3, 0}, {"sne", 3, 0x80000003, 1},
        {"sll", 0x80000001, 33, 2}, {"sla", 0x80000001, 33, 2},
        {"srl", 0x80000000, 0xFFFFFFE4, 0x08000000}, {"sra", 0x80000000, 0xFFFFFFE4, 0xF8000000},
        {"sra", 0x80000000, 31, 0xFFFFFFFF}, {"sra", 0x40000000, 30, 1}, {"sra", 0x80000000, 32, 0x80000000},
    };
    for (size_t i = 0; i < sizeof list / sizeof list[0]; i++) {
        char name[80];
        struct card card = card_of(word_of(list[i].name, 3, 1, 2, 0, 0));
        card.regs.gpr[1] = list[i].a;
        card.regs.gpr[2] = list[i].b;
        card.regs.gpr[3] = 0x77777777;
        int good = vamp_gives(&card, 0, 3, list[i].value);
        if (instruction_named(list[i].name)->assembler)
            good = good && both_give(&card, 3, list[i].value);
        snprintf(name, sizeof name, "%s of %08" PRIX32 " and %08" PRIX32 " gives %08" PRIX32,
                 list[i].name, list[i].a, list[i].b, list[i].value);
        check(good, name);
    }
}

static void more_immediate_operations(void)
{
    static const struct { const char *name; uint32_t a; int32_t imm; uint32_t value; } list[] = {
        {"addi", 3, -4, 0xFFFFFFFF}, {"subi", 3, -4, 7}, {"subi", 0, -32768, 32768},
        {"ori", 1, -32768, 0xFFFF8001}, {"xori", 0xFFFFFFFF, -1, 0}, {"xori", 0, -32768, 0xFFFF8000},
        {"andi", 0x12345678, 0x7FFF, 0x5678}, {"lhgi", 9, -1, 0xFFFF0000}, {"lhgi", 9, 0x1234, 0x12340000},
        {"clri", 9, 9, 0}, {"seti", 9, 8, 1},
        {"sgri", 0, -1, 1}, {"sgri", 0xFFFFFFFF, -1, 0}, {"seqi", 0xFFFFFFFF, -1, 1},
        {"sgei", 0xFFFFFFFF, -1, 1}, {"sgei", 0x80000000, 0, 0}, {"slsi", 0x80000000, -32768, 1},
        {"slsi", 5, 5, 0}, {"snei", 0x0000FFFF, -1, 1}, {"slei", 5, 5, 1}, {"slei", 0, -1, 0},
    };
    for (size_t i = 0; i < sizeof list / sizeof list[0]; i++) {
        char name[80];
        struct card card = card_of(word_of(list[i].name, 3, 1, 0, 0, list[i].imm));
        card.regs.gpr[1] = list[i].a;
        card.regs.gpr[3] = 0x77777777;
        int good = vamp_gives(&card, 0, 3, list[i].value);
        if (instruction_named(list[i].name)->assembler)
            good = good && both_give(&card, 3, list[i].value);
        snprintf(name, sizeof name, "%s of %08" PRIX32 " and %" PRId32 " gives %08" PRIX32,
                 list[i].name, list[i].a, list[i].imm, list[i].value);
        check(good, name);
    }
}

static void more_constant_shifts(void)
{
    static const struct { const char *name; uint32_t a; unsigned sa; uint32_t value; } list[] = {
        {"slli", 0x80000003, 1, 6}, {"slai", 0x80000003, 1, 6}, {"slli", 1, 31, 0x80000000},
        {"srli", 0x80000000, 31, 1}, {"srai", 0x80000000, 31, 0xFFFFFFFF}, {"srai", 0x80000000, 0, 0x80000000},
    };
    for (size_t i = 0; i < sizeof list / sizeof list[0]; i++) {
        char name[80];
        struct card card = card_of(word_of(list[i].name, 3, 1, 0, list[i].sa, 0));
        card.regs.gpr[1] = list[i].a;
        snprintf(name, sizeof name, "%s of %08" PRIX32 " by %u gives %08" PRIX32,
                 list[i].name, list[i].a, list[i].sa, list[i].value);
        check(vamp_gives(&card, 0, 3, list[i].value), name);
    }
}

static void more_overflow(void)
{
    static const struct { const char *name; uint32_t a, b; int over; uint32_t value; } list[] = {
        {"addo", 0x7FFFFFFF, 0x7FFFFFFF, 1, 0xFFFFFFFE}, {"addo", 0x80000000, 0x80000000, 1, 0},
        {"addo", 0x80000000, 0x7FFFFFFF, 0, 0xFFFFFFFF}, {"addo", 0xFFFFFFFF, 0xFFFFFFFF, 0, 0xFFFFFFFE},
        {"subo", 0x80000000, 1, 1, 0x7FFFFFFF}, {"subo", 0, 0x80000000, 1, 0x80000000},
        {"subo", 0xFFFFFFFF, 0x80000000, 0, 0x7FFFFFFF}, {"subo", 0x80000000, 0x80000000, 0, 0},
        {"addio", 0x7FFFFFFF, 1, 1, 0x80000000}, {"addio", 0x80000000, 0xFFFFFFFF, 1, 0x7FFFFFFF},
        {"addio", 0x7FFFFFFF, 0xFFFFFFFF, 0, 0x7FFFFFFE},
        {"subio", 0x7FFFFFFF, 0xFFFFFFFF, 1, 0x80000000}, {"subio", 0x7FFF8000, 0xFFFF8000, 1, 0x80000000},
        {"subio", 0x7FFF7FFF, 0xFFFF8000, 0, 0x7FFFFFFF},
    };
    for (size_t i = 0; i < sizeof list / sizeof list[0]; i++) {
        char name[80];
        struct card card = card_of(word_of(list[i].name, 3, 1, 2, 0, (int16_t)list[i].b));
        card.regs.gpr[1] = list[i].a;
        card.regs.gpr[2] = list[i].b;
        card.regs.spr[SPR_SR] = 0xFFFFFFBF;     /* every bit but bit 6 */
        int good = vamp_gives(&card, list[i].over ? 64 : 0, 3, list[i].value);
        card.regs.spr[SPR_SR] = 64;
        if (list[i].over)
            good = good && vamp_stops(&card, VAMP_INTERRUPT, 64);
        else
            good = good && vamp_gives(&card, 0, 3, list[i].value);
        snprintf(name, sizeof name, "%s of %08" PRIX32 " and %08" PRIX32 "%s overflows",
                 list[i].name, list[i].a, list[i].b, list[i].over ? "" : " never");
        check(good, name);
    }

    struct card card = card_of(word_of("addo", 0, 1, 1, 0, 0));
    card.regs.gpr[1] = 0x7FFFFFFF;
    check(vamp_gives(&card, 64, 0, 0), "masked overflow into R0: R0 stays 0, CA 64");
}

static void more_transfers(void)
{
    struct card card = card_of(word_of("beqz", 0, 1, 0, 0, 100));
    card.regs.pc = 0x1000;
    check(both_counters(&card, 0x1000, 0x1064), "a taken branch starts from the old PC', not from DPC");
    card.regs.gpr[1] = 1;
    check(both_counters(&card, 0x1000, 0x1004), "beqz not taken: PC' + 4");
    set_code(&card, 0, word_of("bnez", 0, 1, 0, 0, -4));
    card.regs.pc = 0;
    check(both_counters(&card, 0, 0xFFFFFFFC), "bnez taken: PC' wraps below 0");

    card = card_of(word_of("jr", 0, 31, 0, 0, 0));
    card.regs.gpr[31] = 0xDEADBEEF;
    check(both_counters(&card, 4, 0xDEADBEEF), "jr to anywhere is not reported at the jump");

    card = card_of(word_of("jalr", 0, 31, 0, 0, 0));
    card.regs.gpr[31] = 0x40;
    static struct vamp vamp;
    vamp_start(&vamp, &card);
    vamp_step(&vamp);
    check(vamp.regs.dpc == 4 && vamp.regs.pc == 0x40 && vamp.regs.gpr[31] == 8,
          "jalr r31 reads R31 before writing it");

    card = card_of(word_of("j", 0, 0, 0, 0, -33554432));
    vamp_start(&vamp, &card);
    vamp_step(&vamp);
    check(vamp.regs.dpc == 4 && vamp.regs.pc == 0xFE000004 && vamp.regs.gpr[31] == 0,
          "j -2^25: PC' is 4 - 2^25 modulo 2^32, no link");

    card = card_of(0xFC000000);
    card.regs.spr[SPR_ESR] = 0x55;
    card.regs.spr[SPR_EPC] = 0x66;
    card.regs.spr[SPR_EDPC] = 0x77;
    card.regs.spr[SPR_EMODE] = 0x88;
    vamp_start(&vamp, &card);
    struct vamp_answer answer = vamp_step(&vamp);
    struct registers expected = card.regs;
    expected.spr[SPR_SR] = 0x55;
    expected.pc = 0x66;
    expected.dpc = 0x77;
    check(answer.answer == 0 && answer.cause == 0 && same_registers(&vamp.regs, &expected),
          "rfe: SR takes ESR, PC' takes EPC, DPC takes EDPC, nothing else");

    /* jal in the delay slot of a jal: both targets from the rule. */
    card = plain_card();
    set_code(&card, 0, word_of("jal", 0, 0, 0, 0, 4));
    set_code(&card, 1, word_of("jal", 0, 0, 0, 0, -8));
    card.limit = 3;
    check(verdict_is(&card, "accepted 3 next 00000000"), "a transfer in a delay slot");
}

static void more_special_registers(void)
{
    int good = 1;
    for (unsigned i = 0; i < REGISTERS; i++) {
        int used = i <= 11;
        struct card card = card_of(word_of("movi2s", 0, 1, 0, i, 0));
        card.regs.gpr[1] = 0x600DF00D;
        if (i != SPR_MODE) {
            static struct pair pair;
            step_pair(&pair, &card);
            uint32_t kept = used ? 0x600DF00D : 0;
            good = good && pair.checked == 0 && pair.stepped.answer == 0 &&
                   pair.checker.regs.spr[i] == kept && pair.vamp.regs.spr[i] == kept;
        }
        card = card_of(word_of("movs2i", 1, 0, 0, i, 0));
        card.regs.gpr[1] = 5;
        if (used)
            card.regs.spr[i] = 0x1234 + i;
        good = good && both_give(&card, 1, used ? 0x1234 + i : 0);
    }
    check(good, "special registers 0 to 11 keep, the others drop writes and read zero");

    struct card card = card_of(0x00200411);
    check(both_counters(&card, 4, 8), "movi2s of 0 to MODE steps");
    card.regs.gpr[1] = 0x80000000;
    check(checker_stops(&card, CHECK_MODE) && vamp_stops(&card, VAMP_MODE, 0),
          "movi2s of another value to MODE: 27 and 33");
}

static void more_memory(void)
{
    static const struct { const char *name; int32_t ea; uint32_t value; } loads[] = {
        {"lb", 256, 0xFFFFFF80}, {"lbu", 256, 0x80}, {"lb", 259, 0x12}, {"lh", 256, 0xFFFFFE80},
        {"lhu", 256, 0xFE80}, {"lh", 258, 0x1234}, {"lw", 256, 0x1234FE80},
    };
    for (size_t i = 0; i < sizeof loads / sizeof loads[0]; i++) {
        char name[80];
        struct card card = card_of(word_of(loads[i].name, 3, 0, 0, 0, loads[i].ea));
        set_data(&card, 0, 0x1234FE80);
        snprintf(name, sizeof name, "%s at %" PRId32 " of 1234FE80 gives %08" PRIX32,
                 loads[i].name, loads[i].ea, loads[i].value);
        check(vamp_gives(&card, 0, 3, loads[i].value), name);
    }
    static const struct { const char *name; int32_t ea; uint32_t value; } stores[] = {
        {"sb", 256, 0x111111DD}, {"sb", 259, 0xDD111111}, {"sh", 256, 0x1111CCDD},
        {"sh", 258, 0xCCDD1111}, {"sw", 256, 0xAABBCCDD},
    };
    for (size_t i = 0; i < sizeof stores / sizeof stores[0]; i++) {
        char name[80];
        static struct vamp vamp;
        struct card card = card_of(word_of(stores[i].name, 3, 0, 0, 0, stores[i].ea));
        set_data(&card, 0, 0x11111111);
        card.regs.gpr[3] = 0xAABBCCDD;
        vamp_start(&vamp, &card);
        int good = vamp_step(&vamp).answer == 0 && get_word(vamp.memory + 256) == stores[i].value;
        snprintf(name, sizeof name, "%s at %" PRId32 " of AABBCCDD leaves %08" PRIX32,
                 stores[i].name, stores[i].ea, stores[i].value);
        check(good, name);
    }
}

static void more_vamp_events(void)
{
    static const struct { const char *name; uint32_t base; int32_t imm; int answer; uint32_t cause; } list[] = {
        {"lb", 16383, 0, 0, 0}, {"lb", 16383, 1, VAMP_PAST_MEMORY, 0},
        {"lh", 16382, 0, 0, 0}, {"lh", 16383, 0, VAMP_INTERRUPT, CAUSE_MISALIGNED},
        {"lhu", 16384, 1, VAMP_INTERRUPT, CAUSE_MISALIGNED}, {"lhu", 16384, 0, VAMP_PAST_MEMORY, 0},
        {"lw", 16380, 0, 0, 0}, {"lw", 16382, 0, VAMP_INTERRUPT, CAUSE_MISALIGNED},
        {"lw", 16384, 0, VAMP_PAST_MEMORY, 0}, {"lw", 0xFFFFFFFF, 0, VAMP_INTERRUPT, CAUSE_MISALIGNED},
        {"lw", 0xFFFFFFFC, 0, VAMP_PAST_MEMORY, 0}, {"lw", 0xFFFFFFFC, 8, 0, 0},
        {"sw", 16380, 4, VAMP_PAST_MEMORY, 0}, {"sw", 16380, 3, VAMP_INTERRUPT, CAUSE_MISALIGNED},
        {"sh", 1, 0, VAMP_INTERRUPT, CAUSE_MISALIGNED}, {"sb", 1, 0, 0, 0}, {"sb", 0, -1, VAMP_PAST_MEMORY, 0},
    };
    for (size_t i = 0; i < sizeof list / sizeof list[0]; i++) {
        char name[96];
        struct card card = card_of(word_of(list[i].name, 3, 1, 0, 0, list[i].imm));
        static struct vamp vamp;
        card.regs.gpr[1] = list[i].base;
        vamp_start(&vamp, &card);
        int good = list[i].answer == 0 ? vamp_step(&vamp).answer == 0
                                       : vamp_stops(&card, list[i].answer, list[i].cause);
        snprintf(name, sizeof name, "VAMP %s at %08" PRIX32 " + %" PRId32 " answers %d, cause %" PRIu32,
                 list[i].name, list[i].base, list[i].imm, list[i].answer, list[i].cause);
        check(good, name);
    }

    struct card card = card_of(0xF8000005);
    check(vamp_stops(&card, VAMP_INTERRUPT, 32), "trap: answer 31, CA 32");
    card = card_of(0xFBFFFFFF);
    card.regs.spr[SPR_SR] = 0;
    check(vamp_stops(&card, VAMP_INTERRUPT, 32), "trap cannot be masked");
    card = card_of(0x04000000);
    check(vamp_stops(&card, VAMP_INTERRUPT, 2), "illegal word: answer 31, CA 2");
    card = plain_card();
    card.regs.dpc = 2;
    check(vamp_stops(&card, VAMP_INTERRUPT, 4), "DPC 2: answer 31, CA 4");
    card.regs.dpc = 0xFFFFFFFF;
    check(vamp_stops(&card, VAMP_INTERRUPT, 4), "DPC FFFFFFFF: alignment before memory");
    card.regs.dpc = 16384;
    check(vamp_stops(&card, VAMP_PAST_MEMORY, 0), "DPC 16384: answer 32");
    card.regs.dpc = 16380;
    check(vamp_gives(&card, 0, 0, 0), "DPC 16380 steps (zero memory is nop)");

    static struct vamp vamp;
    card = plain_card();
    set_code(&card, 0, word_of("sw", 3, 0, 0, 0, 4));
    card.regs.gpr[3] = 0x2401FFFC;
    vamp_start(&vamp, &card);
    vamp_step(&vamp);
    vamp_step(&vamp);
    check(vamp.regs.gpr[1] == 0xFFFFFFFC, "a VAMP store into code is run at once");
    check(checker_stops(&card, CHECK_EA_REGION), "a checked store never reaches code");
}

static void more_checked_tests(void)
{
    struct card card = plain_card();
    card.regs.dpc = 0xFFFFFFFE;
    check(verdict_is(&card, "violation 21 step 0 at FFFFFFFE word -"), "21 before 22");
    card.regs.dpc = 12;
    check(verdict_is(&card, "violation 22 step 0 at 0000000C word -"), "22 right after the code");
    card.regs.dpc = 256;
    check(verdict_is(&card, "violation 22 step 0 at 00000100 word -"), "22 in the data region");
    card.code_start = 16;
    card.regs.dpc = 12;
    check(verdict_is(&card, "violation 22 step 0 at 0000000C word -"), "22 right before the code");
    card = card_of(0x04000000);
    check(verdict_is(&card, "violation 23 step 0 at 00000000 word 04000000"), "23");
    card = card_of(word_of("lh", 2, 0, 0, 0, 1));
    check(verdict_is(&card, "violation 24 step 0 at 00000000 word 84020001"), "24 before 25");
    card = card_of(word_of("lw", 2, 0, 0, 0, 1));
    check(verdict_is(&card, "violation 25 step 0 at 00000000 word 8C020001"), "25 before 26");
    card = card_of(word_of("sw", 2, 0, 0, 0, 252));
    check(verdict_is(&card, "violation 26 step 0 at 00000000 word AC0200FC"), "26 right before the data");
    card.data_words = 0;
    set_code(&card, 0, word_of("lw", 2, 0, 0, 0, 256));
    check(verdict_is(&card, "violation 26 step 0 at 00000000 word 8C020100"), "26 always when D is 0");
    card = card_of(0x00200411);
    card.regs.gpr[1] = 1;
    check(verdict_is(&card, "violation 27 step 0 at 00000000 word 00200411"), "27");

    card = plain_card();
    card.limit = 0;
    card.regs.dpc = 0xFFFFFFFF;
    check(verdict_is(&card, "accepted 0 next FFFFFFFF"), "limit 0 is accepted with any DPC");
    card = plain_card();
    card.limit = 3;
    check(verdict_is(&card, "accepted 3 next 0000000C"), "the limit ends before the bad fetch");
    card.limit = 4;
    check(verdict_is(&card, "violation 22 step 3 at 0000000C word -"), "the bad fetch is the next step");
    card = card_of(word_of("jr", 0, 1, 0, 0, 0));
    card.regs.gpr[1] = 6;
    check(verdict_is(&card, "violation 21 step 2 at 00000006 word -"), "a bad target is reported when fetched");
}

/* ---- further cases: refusals --------------------------------------------- */

/* Gives the card bytes the fault with this number. */
static size_t add_fault(int number, uint8_t *bytes, size_t length)
{
    switch (number) {
    case REFUSED_SHORT: return CARD_BODY - 1;
    case REFUSED_MARK: bytes[CARD_MARK + 2] = 'd'; break;
    case REFUSED_VERSION: bytes[CARD_VERSION + 1] = 1; break;
    case REFUSED_ZEROS: bytes[CARD_ZEROS + 2] = 1; break;
    case REFUSED_COUNTS: put_word(bytes + CARD_DATA_WORDS, REGION_WORDS_MAX + 1); break;
    case REFUSED_LENGTH: return length + 1;
    case REFUSED_ALIGNMENT: bytes[CARD_CODE_START] |= 1; break;
    case REFUSED_END: put_word(bytes + CARD_CODE_START, 16376); break;
    case REFUSED_OVERLAP: memcpy(bytes + CARD_DATA_START, bytes + CARD_CODE_START, WORD_BYTES); break;
    case REFUSED_REGISTERS: bytes[CARD_GPR + 3] = 1; break;
    case REFUSED_LIMIT: put_word(bytes + CARD_LIMIT, STEP_LIMIT_MAX + 1); break;
    }
    return length;
}

static int refusal_with(int first, int second)
{
    static uint8_t bytes[CARD_BYTES_MAX + 1];
    static struct card loaded, zeros;
    struct card card = plain_card();
    size_t length = card_write(&card, bytes);
    int low = first < second ? first : second;
    int high = first < second ? second : first;
    bytes[length] = 0;
    /* 9 sets the code start, so it goes before 8 and 10 that change it. */
    if (high == REFUSED_END || low == REFUSED_END)
        length = add_fault(REFUSED_END, bytes, length);
    if (low != REFUSED_END)
        length = add_fault(low, bytes, length);
    if (high != REFUSED_END && high != low)
        length = add_fault(high, bytes, length);
    if (low == REFUSED_SHORT)
        length = CARD_BODY - 1;
    int answer = card_load(bytes, length, &loaded);
    return answer == low && memcmp(&loaded, &zeros, sizeof loaded) == 0 ? low : -answer;
}

static int refusal_of(const struct card *card)
{
    static uint8_t bytes[CARD_BYTES_MAX];
    static struct card loaded;
    size_t length = card_write(card, bytes);
    return card_load(bytes, length, &loaded);
}

static void more_refusals(void)
{
    for (int i = REFUSED_SHORT; i <= REFUSED_LIMIT; i++) {
        char name[80];
        int good = 1;
        for (int j = i; j <= REFUSED_LIMIT; j++)
            good = good && refusal_with(i, j) == i;
        snprintf(name, sizeof name, "refusal %d alone, and before every later one", i);
        check(good, name);
    }

    struct card card = plain_card();
    check(refusal_of(&card) == 0, "the plain card is not refused");
    card.code_words = 0;
    check(refusal_of(&card) == REFUSED_COUNTS, "C = 0 is 6");
    card = plain_card();
    card.code_words = REGION_WORDS_MAX;
    card.data_start = 4 * REGION_WORDS_MAX;
    card.data_words = REGION_WORDS_MAX;
    check(refusal_of(&card) == 0, "1,024 words of each, adjacent, are loaded");
    card.data_start -= 4;
    check(refusal_of(&card) == REFUSED_OVERLAP, "one shared word is 10");
    card.data_start = 16384 - 4096;
    check(refusal_of(&card) == 0, "data that ends at 16,384 is loaded");
    card.data_start += 4;
    check(refusal_of(&card) == REFUSED_END, "data that ends at 16,388 is 9");
    card.data_start = 0xFFFFF000;
    check(refusal_of(&card) == REFUSED_END, "start + 4 x count is not wrapped (9)");
    card = plain_card();
    card.data_words = 0;
    card.data_start = 4;
    check(refusal_of(&card) == 0, "D = 0 inside the code region does not overlap");
    card.data_start = 16384;
    check(refusal_of(&card) == 0, "D = 0 at 16,384 is loaded");
    card.data_start = 16388;
    check(refusal_of(&card) == REFUSED_END, "D = 0 at 16,388 is 9");
    card.data_start = 16385;
    check(refusal_of(&card) == REFUSED_ALIGNMENT, "D = 0 at 16,385 is 8");

    int good = 1;
    for (unsigned i = 0; i < REGISTERS; i++) {
        card = plain_card();
        card.regs.spr[i] = 1;
        good = good && refusal_of(&card) == (i <= 11 ? 0 : REFUSED_REGISTERS);
    }
    check(good, "special registers 12 to 31, MODE included, must be zero (11)");
    card = plain_card();
    card.limit = STEP_LIMIT_MAX;
    check(refusal_of(&card) == 0, "limit 1,000,000 is loaded");
    card.limit = 0xFFFFFFFF;
    check(refusal_of(&card) == REFUSED_LIMIT, "limit FFFFFFFF is 12");

    char text[VERDICT_TEXT];
    verdict_of_card((const uint8_t *)"", 0, text);
    check(strcmp(text, "refused 2") == 0, "an empty card is refused 2");
}

/* ---- further cases: explanations ----------------------------------------- */

/* Words worked out by hand from the formats of document 01. */
static const uint32_t nop = 0;
static const uint32_t addi_r1_r0_2 = 0x24010002;
static const uint32_t addi_r1_r1_0 = 0x24210000;
static const uint32_t addi_r1_r1_4 = 0x24210004;
static const uint32_t addi_r0_r0_7 = 0x24000007;
static const uint32_t lw_r2_by_r1 = 0x8C220000;         /* lw r2,r1(0) */
static const uint32_t sw_r2_by_r1 = 0xAC220000;         /* sw r1(0),r2 */
static const uint32_t jr_r1 = 0x58200000;

/* The plain card with these words. */
static struct card card_with(const uint32_t *words, uint32_t count)
{
    struct card card = plain_card();
    card.code_words = count;
    for (uint32_t i = 0; i < count; i++)
        set_code(&card, i, words[i]);
    return card;
}

#define CODE(...) card_with((const uint32_t[]){__VA_ARGS__}, \
                            sizeof (const uint32_t[]){__VA_ARGS__} / WORD_BYTES)

static void explained_constants(void)
{
    struct card card = CODE(0x8C020001);
    check(explained_is(&card, "violation 25 step 0 at 00000000 word 8C020001",
                       "because r0 from zero"), "25 by R0: zero");
    card = CODE(0xAC0200FC);
    check(explained_is(&card, "violation 26 step 0 at 00000000 word AC0200FC",
                       "because r0 from zero"), "26 by R0: zero");
    card = CODE(addi_r0_r0_7, 0x8C0200FC);
    check(explained_is(&card, "violation 26 step 1 at 00000004 word 8C0200FC",
                       "because r0 from zero"), "26 by R0 after a dropped write to it: zero");
    card = CODE(lw_r2_by_r1);
    card.regs.gpr[1] = 258;
    check(explained_is(&card, "violation 25 step 0 at 00000000 word 8C220000",
                       "because r1 from card"), "25 at step 0: card");
    card = CODE(0x24020002, nop, sw_r2_by_r1);
    card.regs.gpr[1] = 272;
    check(explained_is(&card, "violation 26 step 2 at 00000008 word AC220000",
                       "because r1 from card"), "26 by a register that only the card set: card");
}

/* Each writes R1 at step 1, and the access by R1 is step 3. lhgi leaves a multiple of 4: its case is below. */
static void explained_writers(void)
{
    /* R3 is 2, R4 is `other`; R1 becomes 1 or 2. */
    static const struct { const char *name; uint32_t word, other; } list[] = {
        {"lw", 0x8C010100, 0}, {"addi", 0x24610000, 0}, {"andi", 0x30610003, 0}, {"ori", 0x34610002, 0},
        {"xori", 0x38610003, 0}, {"movs2i", 0x00000810, 0}, {"add", 0x00640821, 0}, {"sub", 0x00640823, 1},
        {"slli", 0x00600800, 0}, {"srli", 0x00600842, 0}, {"sne", 0x0064082D, 1}, {"sgr", 0x00640829, 1},
        {"sge", 0x0064082B, 2},
    };
    for (size_t i = 0; i < sizeof list / sizeof list[0]; i++) {
        char name[80], because[BECAUSE_TEXT];
        struct card card = CODE(nop, list[i].word, nop, sw_r2_by_r1);
        card.regs.gpr[1] = 256;
        card.regs.gpr[3] = 2;
        card.regs.gpr[4] = list[i].other;
        card.regs.spr[SPR_SR] = 2;
        set_data(&card, 0, 2);
        snprintf(name, sizeof name, "%s is a writer of its RD", list[i].name);
        snprintf(because, sizeof because, "because r1 from step 1 at 00000004 word %08" PRIX32, list[i].word);
        check(explained_is(&card, "violation 25 step 3 at 0000000C word AC220000", because), name);
    }
}

static void explained_registers(void)
{
    struct card card = CODE(0x3C010001, lw_r2_by_r1);
    check(explained_is(&card, "violation 26 step 1 at 00000004 word 8C220000",
                       "because r1 from step 0 at 00000000 word 3C010001"), "lhgi is a writer of its RD");
    card = CODE(addi_r1_r0_2, lw_r2_by_r1);
    check(explained_is(&card, "violation 25 step 1 at 00000004 word 8C220000",
                       "because r1 from step 0 at 00000000 word 24010002"), "25: the step just before");
    /* lw r1,r0(256) loads 16384. */
    card = CODE(0x8C010100, nop, lw_r2_by_r1);
    set_data(&card, 0, 16384);
    check(explained_is(&card, "violation 26 step 2 at 00000008 word 8C220000",
                       "because r1 from step 0 at 00000000 word 8C010100"), "26: a load");
    /* 0 jal 4, 4 nop, 8 lw r2,r31(0): R31 is 8. */
    card = CODE(0x0C000004, nop, 0x8FE20000);
    check(explained_is(&card, "violation 26 step 2 at 00000008 word 8FE20000",
                       "because r31 from step 0 at 00000000 word 0C000004"), "26: the link of jal");
    card = CODE(addi_r1_r0_2, addi_r1_r1_0, lw_r2_by_r1);
    check(explained_is(&card, "violation 25 step 2 at 00000008 word 8C220000",
                       "because r1 from step 1 at 00000004 word 24210000"), "a step that puts the same value counts");
    card = CODE(addi_r1_r0_2, addi_r1_r1_4, addi_r1_r1_4, lw_r2_by_r1);
    check(explained_is(&card, "violation 25 step 3 at 0000000C word 8C220000",
                       "because r1 from step 2 at 00000008 word 24210004"), "of three writers the last");
    /* sw r0(256),r1; movi2s SPR[6],r1 and bnez r0,4, with 1 where others have RD; addi r0,r0,7 */
    card = CODE(addi_r1_r0_2, 0xAC010100, 0x00200991, 0x14010004, addi_r0_r0_7, lw_r2_by_r1);
    check(explained_is(&card, "violation 25 step 5 at 00000014 word 8C220000",
                       "because r1 from step 0 at 00000000 word 24010002"),
          "a store, movi2s, a branch and a write to R0 write nothing");
    /* lw r1,r1(0): the violating step writes R1 by its word, and is not taken. */
    card = CODE(addi_r1_r0_2, 0x8C210000);
    check(explained_is(&card, "violation 25 step 1 at 00000004 word 8C210000",
                       "because r1 from step 0 at 00000000 word 24010002"), "the violating step counts for nothing");
    /* 0 addi r1,r1,-4, 4 lw r2,r1(0), 8 beqz r0,-12, C nop: R1 is 268, 264, 260, 256, 252. */
    card = CODE(0x2421FFFC, lw_r2_by_r1, 0x1000FFF4, nop);
    card.regs.gpr[1] = 272;
    card.limit = 100;
    check(explained_is(&card, "violation 26 step 17 at 00000004 word 8C220000",
                       "because r1 from step 16 at 00000000 word 2421FFFC"), "in the fifth round of a loop");
    /* 0 beqz r2,8, 4 addi r1,r0,2, 8 addi r1,r1,4 is skipped, C lw r2,r1(0). */
    card = CODE(0x10400008, addi_r1_r0_2, addi_r1_r1_4, lw_r2_by_r1);
    check(explained_is(&card, "violation 25 step 2 at 0000000C word 8C220000",
                       "because r1 from step 1 at 00000004 word 24010002"), "by the steps taken, not by the words' order");
}

static void explained_first_counters(void)
{
    struct card card = CODE(nop, nop);
    card.regs.dpc = 6;
    check(explained_is(&card, "violation 21 step 0 at 00000006 word -", "because dpc from card"), "21 at step 0: card");
    card.regs.dpc = 8;
    check(explained_is(&card, "violation 22 step 0 at 00000008 word -", "because dpc from card"), "22 at step 0: card");
    card.regs.dpc = 0;
    card.regs.pc = 6;
    check(explained_is(&card, "violation 21 step 1 at 00000006 word -", "because dpc from card"), "21 at step 1: card");
    /* jal at step 0 is a transfer, and not the reason at step 1. */
    card = CODE(0x0C000006);
    check(explained_is(&card, "violation 22 step 1 at 00000004 word -", "because dpc from card"), "22 at step 1: card");
    card = CODE(0x0C000006, nop);
    check(explained_is(&card, "violation 21 step 2 at 0000000A word -",
                       "because dpc from step 0 at 00000000 word 0C000006"), "21 at step 2: jal at step 0");
    card = CODE(nop, nop);
    check(explained_is(&card, "violation 22 step 2 at 00000008 word -", "because dpc ran on"), "22 at step 2: ran on");
    /* DPC 0, PC' 0: the word at 0 is run twice, and then the one at 4, which is outside. */
    card = CODE(nop);
    card.regs.pc = 0;
    check(explained_is(&card, "violation 22 step 2 at 00000004 word -", "because dpc ran on"),
          "22 at step 2 after counters that are no pair: ran on");
}

static void explained_transfers(void)
{
    struct card card = CODE(nop, 0x1000000A, nop);
    check(explained_is(&card, "violation 21 step 3 at 00000012 word -",
                       "because dpc from step 1 at 00000004 word 1000000A"), "21 by beqz");
    card = CODE(nop, 0x14200100, nop);
    card.regs.gpr[1] = 5;
    check(explained_is(&card, "violation 22 step 3 at 00000108 word -",
                       "because dpc from step 1 at 00000004 word 14200100"), "22 by bnez");
    /* 0 jal 256, 4 beqz r0,0 in its delay slot: 4 is step 1, and step 2 is the target of jal. */
    card = CODE(0x0C000100, 0x10000000, nop);
    check(explained_is(&card, "violation 22 step 2 at 00000104 word -",
                       "because dpc from step 0 at 00000000 word 0C000100"), "the first of two transfers");
    /* 0 beqz r0,4, 4 jal 256 in its delay slot, 8 nop: PC' is 8 at step 1. */
    card = CODE(0x10000004, 0x0C000100, nop);
    check(explained_is(&card, "violation 22 step 3 at 00000108 word -",
                       "because dpc from step 1 at 00000004 word 0C000100"), "the second of two transfers");
    /* beqz r0,4 at the last word but one goes where the next word would be: outside. */
    card = CODE(nop, 0x10000004, nop);
    check(explained_is(&card, "violation 22 step 3 at 0000000C word -",
                       "because dpc from step 1 at 00000004 word 10000004"), "a taken branch to the next word is a transfer");
    card = CODE(nop, 0x14000004, nop);
    check(explained_is(&card, "violation 22 step 3 at 0000000C word -", "because dpc ran on"), "a branch not taken: ran on");
    card = CODE(nop, 0x10200100, nop);
    card.regs.gpr[1] = 1;
    check(explained_is(&card, "violation 22 step 3 at 0000000C word -", "because dpc ran on"), "beqz not taken: ran on");
    /* A transfer at the last word: its delay slot is outside, and step k - 2 was a nop. */
    card = CODE(nop, nop, 0x0C000100);
    check(explained_is(&card, "violation 22 step 3 at 0000000C word -", "because dpc ran on"),
          "a transfer at step k - 1 is not the reason: ran on");
    card = CODE(nop, nop, nop);
    check(explained_is(&card, "violation 22 step 3 at 0000000C word -", "because dpc ran on"), "past the end of the code: ran on");
}

static void explained_jr(void)
{
    struct card card = CODE(nop, jr_r1, nop);
    card.regs.gpr[1] = 6;
    check(explained_is(&card, "violation 21 step 3 at 00000006 word -",
                       "because dpc from step 1 at 00000004 word 58200000, r1 from card"), "jr by a register of the card");
    card = CODE(addi_r1_r0_2, nop, jr_r1, nop);
    check(explained_is(&card, "violation 21 step 4 at 00000002 word -",
                       "because dpc from step 2 at 00000008 word 58200000, r1 from step 0 at 00000000 word 24010002"),
          "jr by a register that a step wrote");
    /* The code lies at 16, so that 0 is outside. */
    card = CODE(0x58000000, nop);
    card.code_start = 16;
    card.regs.dpc = 16;
    card.regs.pc = 20;
    check(explained_is(&card, "violation 22 step 2 at 00000000 word -",
                       "because dpc from step 0 at 00000010 word 58000000, r0 from zero"), "jr r0: zero, at step 2");
    /* jr r1 at step 1, addi r1,r1,4 in its delay slot at step 2. */
    card = CODE(addi_r1_r0_2, jr_r1, addi_r1_r1_4);
    check(explained_is(&card, "violation 21 step 3 at 00000002 word -",
                       "because dpc from step 1 at 00000004 word 58200000, r1 from step 0 at 00000000 word 24010002"),
          "jr whose delay slot writes its register: the writer before jr");
    card = CODE(jr_r1, addi_r1_r1_4);
    card.regs.gpr[1] = 3;
    check(explained_is(&card, "violation 21 step 2 at 00000003 word -",
                       "because dpc from step 0 at 00000000 word 58200000, r1 from card"),
          "jr whose delay slot writes its register, which was the card's: card");
    /* 0 beqz r0,8, 4 nop, 8 jr r31, C jal -8: jal at C goes to 8 with its delay slot at 10; R31 is 14, outside. */
    card = CODE(0x10000008, nop, 0x5BE00000, 0x0FFFFFF8, nop);
    check(explained_is(&card, "violation 22 step 6 at 00000014 word -",
                       "because dpc from step 4 at 00000008 word 5BE00000, r31 from step 2 at 0000000C word 0FFFFFF8"),
          "jr r31 by a link that is outside");
}

static void explained_none(void)
{
    struct card card = CODE(addi_r1_r0_2, 0x04000000);
    check(explained_is(&card, "violation 23 step 1 at 00000004 word 04000000", ""), "23 has no explanation");
    card = CODE(addi_r1_r0_2, 0x80220000);
    check(explained_is(&card, "violation 24 step 1 at 00000004 word 80220000", ""), "24 has no explanation");
    card = CODE(addi_r1_r0_2, 0x00200411);
    check(explained_is(&card, "violation 27 step 1 at 00000004 word 00200411", ""), "27 has no explanation");
    card = CODE(addi_r1_r0_2, lw_r2_by_r1);
    card.limit = 1;
    check(explained_is(&card, "accepted 1 next 00000004", ""), "an accepted run has no explanation");
    card.limit = 0;
    check(explained_is(&card, "accepted 0 next 00000000", ""), "limit 0 has no explanation");
}

static void explained_late(void)
{
    /* 0 bnez r1,-4, 4 addi r1,r1,-1, 8 lw r2,r1(0): two steps a round, R1 is FFFFFFFF at the end. */
    struct card card = CODE(0x1420FFFC, 0x2421FFFF, lw_r2_by_r1);
    card.regs.gpr[1] = 499998;
    card.limit = STEP_LIMIT_MAX;
    check(explained_is(&card, "violation 25 step 999998 at 00000008 word 8C220000",
                       "because r1 from step 999997 at 00000004 word 2421FFFF"), "25 near the longest run's end");
    /* The same with addi r3,r3,-1 in the place of the count: R1 is the card's over a million steps. */
    card = CODE(0x1460FFFC, 0x2463FFFF, lw_r2_by_r1);
    card.regs.gpr[1] = 257;
    card.regs.gpr[3] = 499998;
    card.limit = STEP_LIMIT_MAX;
    check(explained_is(&card, "violation 25 step 999998 at 00000008 word 8C220000",
                       "because r1 from card"), "25 near the longest run's end, by the card");
}

static void more_explanations(void)
{
    explained_constants();
    explained_writers();
    explained_registers();
    explained_first_counters();
    explained_transfers();
    explained_jr();
    explained_none();
    explained_late();
}

/* ---- further cases: what a word touches ---------------------------------- */

/* Words and lines worked out by hand from the formats and from tables 1.2 to 1.4. */
static void touched_texts(void)
{
    static const struct { const char *name, *text; uint32_t word; } list[] = {
        {"lw r2,r1(8)", "8C220008 reads r1 writes r2", 0x8C220008},
        {"sw r0(256),r1: R0 is named as read", "AC010100 reads r0 r1", 0xAC010100},
        {"movi2s SPR[16],r1", "00200411 reads r1 spr 16 written", 0x00200411},
        {"jal 8", "0C000008 writes r31", 0x0C000008},
        {"rfe", "FC000000 return", 0xFC000000},
        {"an illegal opcode", "04000000 23", 0x04000000},
        {"an illegal function", "03FFFFC8 23", 0x03FFFFC8},
        {"addi r1,r0,-4", "2401FFFC reads r0 writes r1", 0x2401FFFC},
        {"addo r1,r2,r3", "00430820 reads r2 r3 writes r1", 0x00430820},
        {"slli r0,r0,0: no write to R0", "00000000 reads r0", 0x00000000},
        {"slli r4,r5,3", "00A020C0 reads r5 writes r4", 0x00A020C0},
        {"add r1,r1,r1: a repeat", "00210821 reads r1 r1 writes r1", 0x00210821},
        {"add r0,r1,r2", "00220021 reads r1 r2", 0x00220021},
        {"lbu r0,r7(0)", "90E00000 reads r7", 0x90E00000},
        {"sb r1(0),r1: a repeat", "A0210000 reads r1 r1", 0xA0210000},
        {"lhg r2,r1, all ones elsewhere", "003F17E7 reads r1 writes r2", 0x003F17E7},
        {"clr r1, all ones elsewhere", "03FF0FE8 writes r1", 0x03FF0FE8},
        {"seti r2, all ones elsewhere", "7FE2FFFF writes r2", 0x7FE2FFFF},
        {"lhgi r1,1, all ones elsewhere", "3FE10001 writes r1", 0x3FE10001},
        {"movs2i r3,SPR[2], all ones elsewhere", "03FF1890 writes r3 spr 2 read", 0x03FF1890},
        {"movs2i r0,SPR[31]: a number of no use", "000007D0 spr 31 read", 0x000007D0},
        {"movi2s SPR[12],r0: a number of no use", "00000311 reads r0 spr 12 written", 0x00000311},
        {"beqz r3,-4, 9 where others have RD", "1069FFFC reads r3", 0x1069FFFC},
        {"jr r31", "5BE00000 reads r31", 0x5BE00000},
        {"jalr r1, all ones elsewhere", "5C3FFFFF reads r1 writes r31", 0x5C3FFFFF},
        {"jalr r31", "5FE00000 reads r31 writes r31", 0x5FE00000},
        {"j -1", "0BFFFFFF", 0x0BFFFFFF},
        {"trap 5", "F8000005", 0xF8000005},
        {"rfe, all ones elsewhere", "FFFFFFFF return", 0xFFFFFFFF},
    };
    for (size_t i = 0; i < sizeof list / sizeof list[0]; i++) {
        char text[TOUCHES_TEXT], name[80];
        touches_text(list[i].word, text);
        if (strcmp(text, list[i].text) != 0)
            printf("     got '%s', expected '%s'\n", text, list[i].text);
        snprintf(name, sizeof name, "touched by %s", list[i].name);
        check(strcmp(text, list[i].text) == 0, name);
    }
}

static void touched_by_illegal_words(void)
{
    int good = 1;
    for (uint32_t opcode = 0; opcode < 64; opcode++) {
        for (uint32_t function = 0; function < 64; function++) {
            uint32_t word = opcode << 26 | UINT32_C(0x03FFFFC0) | function;
            struct touches touches = touches_of(word);
            int nothing = touches.reads == 0 && touches.written == 0 && touches.special == SPECIAL_NONE;
            good = good && (instruction_of(word) != NULL || nothing);
        }
    }
    check(good, "illegal words touch nothing");
}

/* Numbers that look random, the same at each run (xorshift64*). */
static uint64_t draw_state;

static uint32_t draw(void)
{
    draw_state ^= draw_state >> 12;
    draw_state ^= draw_state << 25;
    draw_state ^= draw_state >> 27;
    return (uint32_t)((draw_state * UINT64_C(2685821657736338717)) >> 32);
}

/* Two of these are often equal, and one is often what a word asks for. */
static uint32_t draw_value(void)
{
    switch (draw() % 5) {
    case 0: return 0;                                                   /* branches */
    case 1: return 8 + draw() % 4;                                      /* equal or close to the immediate 8 */
    case 2: return UINT32_C(0x7FFFFFF8) + draw() % 16;                  /* overflow */
    case 3: return WORD_BYTES * (draw() % (MEMORY_BYTES / WORD_BYTES)); /* loads and stores */
    default: return draw();
    }
}

/* One step of the VAMP machine: before it, after it, and its answer. */
struct trial {
    struct vamp before, after;
    struct vamp_answer answer;
};

static void take_step(struct trial *trial)
{
    trial->after = trial->before;
    trial->answer = vamp_step(&trial->after);
}

/* A step of this word from a state that a card could have led to: R0, MODE and the special registers of no use are 0. */
static void draw_trial(uint32_t word, struct trial *trial)
{
    struct vamp *machine = &trial->before;
    memset(machine, 0, sizeof *machine);
    for (uint32_t at = 0; at < MEMORY_BYTES; at += WORD_BYTES)
        put_word(machine->memory + at, draw());
    for (unsigned i = 1; i < REGISTERS; i++)
        machine->regs.gpr[i] = draw_value();
    for (unsigned i = 0; i <= SPR_EMODE; i++)
        machine->regs.spr[i] = draw_value();
    machine->regs.dpc = WORD_BYTES * (draw() % (MEMORY_BYTES / WORD_BYTES));
    machine->regs.pc = draw_value();
    put_word(machine->memory + machine->regs.dpc, word);
    take_step(trial);
}

/* The registers of both kinds in one row: R0 to R31, then the special registers 0 to 31. */
enum { ROW = 2 * REGISTERS };

static uint32_t *in_row(struct vamp *machine, unsigned place)
{
    return place < REGISTERS ? &machine->regs.gpr[place] : &machine->regs.spr[place - REGISTERS];
}

/* The places that can differ between two states. */
static int may_vary(unsigned place)
{
    return place != 0 && place <= REGISTERS + SPR_EMODE;
}

static int named_as_read(const struct touches *touches, unsigned place)
{
    if (place < REGISTERS)
        return (touches->reads > 0 && touches->read[0] == place) || (touches->reads > 1 && touches->read[1] == place);
    unsigned number = place - REGISTERS;
    if (touches->special == SPECIAL_RETURN)
        return number == SPR_ESR || number == SPR_EPC || number == SPR_EDPC;
    return touches->special == SPECIAL_READ && touches->number == number;
}

static int named_as_written(const struct touches *touches, unsigned place)
{
    if (place < REGISTERS)
        return place != 0 && touches->written == place;
    unsigned number = place - REGISTERS;
    if (touches->special == SPECIAL_RETURN)
        return number == SPR_SR;
    return touches->special == SPECIAL_WRITTEN && touches->number == number;
}

static int changes_named_only(const struct touches *touches, struct trial *trial)
{
    int good = 1;
    for (unsigned place = 0; place < ROW; place++)
        good = good && (named_as_written(touches, place) ||
                        *in_row(&trial->before, place) == *in_row(&trial->after, place));
    return good;
}

/* The same trial, but for another value at this place. */
static void vary(const struct trial *trial, unsigned place, struct trial *other)
{
    other->before = trial->before;
    uint32_t *value = in_row(&other->before, place);
    uint32_t old = *value;
    while (*value == old)
        *value = draw_value();
    /* Whether an overflow stops the step is for bit 6 of SR to say, and not for the word: SR is not named for it. */
    if (place == REGISTERS + SPR_SR && trial->answer.cause == CAUSE_OVERFLOW)
        *value = (*value & ~(uint32_t)CAUSE_OVERFLOW) | (old & CAUSE_OVERFLOW);
    take_step(other);
}

/*
 * Whether two trials that differ at this place alone do the same. What the
 * step writes there has to be the same; what it leaves there differs as before.
 */
static int same_step(const struct touches *touches, unsigned place, const struct trial *trial, struct trial *other)
{
    static struct vamp expected;
    expected = trial->after;
    if (trial->answer.answer != VAMP_STEPPED || !named_as_written(touches, place))
        *in_row(&expected, place) = *in_row(&other->before, place);
    return trial->answer.answer == other->answer.answer && trial->answer.cause == other->answer.cause &&
           memcmp(&expected, &other->after, sizeof expected) == 0;
}

static int depends_on_named_only(const struct touches *touches, const struct trial *trial)
{
    static struct trial other;
    int good = 1;
    for (unsigned place = 0; place < ROW; place++) {
        if (!may_vary(place) || named_as_read(touches, place))
            continue;
        vary(trial, place, &other);
        good = good && same_step(touches, place, trial, &other);
    }
    return good;
}

enum { MOST_TRIALS = 2000 };    /* until one is found that shows what is looked for */

/* Whether some step of the word leaves another value at this place. */
static int changes(uint32_t word, unsigned place)
{
    static struct trial trial;
    int found = 0;
    for (int i = 0; i < MOST_TRIALS && !found; i++) {
        draw_trial(word, &trial);
        found = *in_row(&trial.before, place) != *in_row(&trial.after, place);
    }
    return found;
}

/* Whether some two steps of the word differ where their states differ at this place alone. */
static int depends_on(uint32_t word, unsigned place)
{
    static struct trial trial, other;
    struct touches touches = touches_of(word);
    int found = 0;
    for (int i = 0; i < MOST_TRIALS && !found; i++) {
        draw_trial(word, &trial);
        vary(&trial, place, &other);
        found = !same_step(&touches, place, &trial, &other);
    }
    return found;
}

static int changes_all_named(uint32_t word)
{
    struct touches touches = touches_of(word);
    int good = 1;
    for (unsigned place = 0; place < ROW; place++)
        if (named_as_written(&touches, place))
            good = good && changes(word, place);
    return good;
}

static int depends_on_all_named(uint32_t word)
{
    struct touches touches = touches_of(word);
    int good = 1;
    for (unsigned place = 0; place < ROW; place++)
        if (named_as_read(&touches, place))
            good = good && depends_on(word, place);
    return good;
}

/* The first have registers that differ and are not R0, and the number of a special register with a use: all of them matter. */
enum { PLAIN_FIELDS = 4 };
static const struct fields touching_fields[] = {
    {5, 1, 2, 7, 8}, {31, 9, 16, 11, 8}, {1, 31, 30, 4, 8}, {17, 24, 31, 1, 8},
    {1, 1, 2, 0, 8}, {2, 1, 2, 16, -8}, {2, 1, 1, 31, 0}, {31, 31, 31, 12, 4},    /* repeats */
    {0, 1, 2, 3, 8}, {3, 0, 2, 10, 256}, {3, 1, 0, 5, 8}, {0, 0, 0, 0, 0},        /* R0 */
};
enum { FIELDS = sizeof touching_fields / sizeof touching_fields[0] };

/* The word with these fields, and anything in the bits that it does not use. */
static uint32_t touching_word(const struct instruction *entry, struct fields fields)
{
    return make_word(entry, fields) | (draw() & ~used_bits(entry));
}

static void check_touched(int good, const struct instruction *entry, const char *what)
{
    char name[80];
    snprintf(name, sizeof name, "%s %s", entry->name, what);
    check(good, name);
}

/* The steps have to do with no other registers than the table names. */
static void touched_only_named(const struct instruction *entry)
{
    enum { TRIALS = 8 };
    static struct trial trial;
    int written = 1, read = 1;
    for (int i = 0; i < TRIALS * FIELDS; i++) {
        uint32_t word = touching_word(entry, touching_fields[i % FIELDS]);
        struct touches touches = touches_of(word);
        draw_trial(word, &trial);
        written = written && changes_named_only(&touches, &trial);
        read = read && depends_on_named_only(&touches, &trial);
    }
    check_touched(written, entry, "changes no register but what is named as written");
    check_touched(read, entry, "depends on no register but what is named as read");
}

/* And the table names no other registers than the steps have to do with. */
static void touched_all_named(const struct instruction *entry)
{
    int written = 1, read = 1;
    for (int i = 0; i < PLAIN_FIELDS; i++) {
        uint32_t word = touching_word(entry, touching_fields[i]);
        written = written && changes_all_named(word);
        read = read && depends_on_all_named(word);
    }
    check_touched(written, entry, "changes each register that is named as written");
    check_touched(read, entry, "depends on each register that is named as read");
}

static void more_touches(void)
{
    touched_texts();
    touched_by_illegal_words();
    draw_state = 6;
    for (int i = 0; i < INSTRUCTIONS; i++) {
        touched_only_named(&instruction_table[i]);
        touched_all_named(&instruction_table[i]);
    }
}

int selftest(void)
{
    cases = 0;
    failures = 0;
    puts("document 01, checked by hand");
    document_words();
    document_steps();
    document_regions();
    document_whole_case();
    puts("further cases");
    more_words();
    more_unused_fields();
    more_register_operations();
    more_immediate_operations();
    more_constant_shifts();
    more_overflow();
    more_transfers();
    more_special_registers();
    more_memory();
    more_vamp_events();
    more_checked_tests();
    more_refusals();
    puts("explanations");
    more_explanations();
    puts("what a word touches");
    more_touches();
    printf("%d cases, %d failures\n", cases, failures);
    return failures;
}
