/*
 * Nivoplet reference simulator: the program.
 *
 *   simulate verdict [FILE...]   one verdict line per card
 *   simulate explain [FILE...]   the same and, where there is one, the explanation in a second line
 *   simulate dump [FILE]         both final states in full
 *   simulate bundle FILE         one line per card of a bundle, with digests
 *   simulate fast FILE           the same lines, with the checker of fast.c
 *   simulate touches [FILE...]   the registers that each word of a list reads and writes
 *   simulate selftest            the hand-checked cases
 */
#include "explain.h"
#include "fast.h"
#include "isa.h"
#include "selftest.h"
#include "sim.h"

#include <inttypes.h>
#include <stdio.h>
#include <stdlib.h>
#include <string.h>

enum { EXIT_TROUBLE = 2 };      /* a file that cannot be read, a wrong call */

struct bytes {
    uint8_t *at;
    size_t length;
};

/* ---- files --------------------------------------------------------------- */

static int read_stream(FILE *stream, struct bytes *bytes)
{
    size_t room = 1 << 16;
    bytes->at = malloc(room);
    bytes->length = 0;
    while (bytes->at != NULL) {
        size_t got = fread(bytes->at + bytes->length, 1, room - bytes->length, stream);
        bytes->length += got;
        if (bytes->length < room)
            return !ferror(stream);
        room *= 2;
        uint8_t *more = realloc(bytes->at, room);
        if (more == NULL)
            free(bytes->at);
        bytes->at = more;
    }
    return 0;
}

/* Reads a whole file, or standard input when the name is null. */
static struct bytes read_file(const char *name)
{
    struct bytes bytes = {NULL, 0};
    FILE *stream = name == NULL ? stdin : fopen(name, "rb");
    if (stream == NULL || !read_stream(stream, &bytes)) {
        fprintf(stderr, "simulate: cannot read %s\n", name == NULL ? "standard input" : name);
        exit(EXIT_TROUBLE);
    }
    if (name != NULL)
        fclose(stream);
    return bytes;
}

/* ---- verdict and explanation --------------------------------------------- */

static void print_verdict_of(const struct bytes *card)
{
    char text[VERDICT_TEXT];
    verdict_of_card(card->at, card->length, text);
    puts(text);
}

static void print_verdict(const char *name)
{
    struct bytes bytes = read_file(name);
    print_verdict_of(&bytes);
    free(bytes.at);
}

static void print_explained(const char *name)
{
    static struct card card;
    char text[BECAUSE_TEXT] = "";
    struct bytes bytes = read_file(name);
    print_verdict_of(&bytes);
    if (card_load(bytes.at, bytes.length, &card) == REFUSED_NOT)
        because_of_card(&card, text);
    if (text[0] != '\0')
        puts(text);
    free(bytes.at);
}

/* Does the same with each file, or with standard input where none is named. */
static int each_file(int count, char **names, void (*print)(const char *name))
{
    if (count == 0)
        print(NULL);
    for (int i = 0; i < count; i++)
        print(names[i]);
    return 0;
}

/* ---- both runs ----------------------------------------------------------- */

/* One card run on both machines, each on its own. */
struct both {
    struct card card;
    struct checker checker;
    struct vamp loaded;         /* the VAMP machine before its run */
    struct vamp vamp;
    struct check_result checked;
    struct vamp_result stepped;
};

/* A checked run, plain or fast. */
typedef struct check_result checked_run(struct checker *machine, uint32_t limit);

/* Answers the refusal, or 0 with both runs done. */
static int run_both(const uint8_t *bytes, size_t length, checked_run *run, struct both *both)
{
    int refusal = card_load(bytes, length, &both->card);
    if (refusal != REFUSED_NOT)
        return refusal;
    checker_start(&both->checker, &both->card);
    both->checked = run(&both->checker, both->card.limit);
    vamp_start(&both->loaded, &both->card);
    both->vamp = both->loaded;
    both->stepped = vamp_run(&both->vamp, both->card.limit);
    return REFUSED_NOT;
}

/* ---- dump ---------------------------------------------------------------- */

static void print_file(const char *name, const uint32_t file[REGISTERS])
{
    fputs(name, stdout);
    for (int i = 0; i < REGISTERS; i++)
        printf(" %08" PRIX32, file[i]);
    putchar('\n');
}

static void print_registers(const struct registers *regs)
{
    printf("dpc %08" PRIX32 " pc %08" PRIX32 "\n", regs->dpc, regs->pc);
    print_file("gpr", regs->gpr);
    print_file("spr", regs->spr);
}

static void print_changed_words(const uint8_t *before, const uint8_t *after,
                                uint32_t start, uint32_t words)
{
    for (uint32_t i = 0; i < words; i++) {
        uint32_t now = get_word(after + WORD_BYTES * i);
        if (now != get_word(before + WORD_BYTES * i))
            printf("word %08" PRIX32 " %08" PRIX32 "\n", start + WORD_BYTES * i, now);
    }
}

static void print_both(const struct both *both)
{
    const struct check_result *checked = &both->checked;
    const struct vamp_result *stepped = &both->stepped;

    if (checked->answer == CHECK_OK)
        printf("assembler accepted %" PRIu32 "\n", checked->steps);
    else
        printf("assembler violation %d step %" PRIu32 "\n", checked->answer, checked->steps);
    print_registers(&both->checker.regs);
    print_changed_words(both->card.data, both->checker.data,
                        both->card.data_start, both->card.data_words);

    if (stepped->last.answer == VAMP_STEPPED)
        printf("vamp stepped %" PRIu32 "\n", stepped->steps);
    else
        printf("vamp stopped %d cause %08" PRIX32 " step %" PRIu32 "\n",
               stepped->last.answer, stepped->last.cause, stepped->steps);
    printf("masked %" PRIu32 "\n", stepped->masked);
    print_registers(&both->vamp.regs);
    print_changed_words(both->loaded.memory, both->vamp.memory, 0, MEMORY_BYTES / WORD_BYTES);
}

static int mode_dump(const char *name)
{
    static struct both both;
    struct bytes bytes = read_file(name);
    int refusal = run_both(bytes.at, bytes.length, checker_run, &both);
    if (refusal != REFUSED_NOT)
        printf("refused %d\n", refusal);
    else
        print_both(&both);
    free(bytes.at);
    return 0;
}

/* ---- bundle -------------------------------------------------------------- */

/* 64-bit FNV-1a. */
#define DIGEST_START UINT64_C(14695981039346656037)
#define DIGEST_PRIME UINT64_C(1099511628211)

static uint64_t digest_bytes(uint64_t digest, const uint8_t *bytes, size_t length)
{
    for (size_t i = 0; i < length; i++)
        digest = (digest ^ bytes[i]) * DIGEST_PRIME;
    return digest;
}

static uint64_t digest_word(uint64_t digest, uint32_t word)
{
    uint8_t bytes[WORD_BYTES];
    put_word(bytes, word);
    return digest_bytes(digest, bytes, sizeof bytes);
}

static uint64_t digest_registers(uint64_t digest, const struct registers *regs)
{
    digest = digest_word(digest, regs->dpc);
    digest = digest_word(digest, regs->pc);
    for (int i = 0; i < REGISTERS; i++)
        digest = digest_word(digest, regs->gpr[i]);
    for (int i = 0; i < REGISTERS; i++)
        digest = digest_word(digest, regs->spr[i]);
    return digest;
}

static uint64_t digest_assembler(const struct both *both)
{
    uint64_t digest = DIGEST_START;
    digest = digest_word(digest, both->checked.steps);
    digest = digest_word(digest, (uint32_t)both->checked.answer);
    digest = digest_registers(digest, &both->checker.regs);
    digest = digest_bytes(digest, both->checker.card.code,
                          WORD_BYTES * (size_t)both->card.code_words);
    return digest_bytes(digest, both->checker.data,
                        WORD_BYTES * (size_t)both->card.data_words);
}

static uint64_t digest_vamp(const struct both *both)
{
    uint64_t digest = DIGEST_START;
    digest = digest_word(digest, both->stepped.steps);
    digest = digest_word(digest, (uint32_t)both->stepped.last.answer);
    digest = digest_word(digest, both->stepped.last.cause);
    digest = digest_word(digest, both->stepped.masked);
    digest = digest_registers(digest, &both->vamp.regs);
    return digest_bytes(digest, both->vamp.memory, MEMORY_BYTES);
}

static void print_digests(const uint8_t *card, size_t length, checked_run *run)
{
    static struct both both;
    char text[VERDICT_TEXT], because[BECAUSE_TEXT];
    int refusal = run_both(card, length, run, &both);
    if (refusal != REFUSED_NOT) {
        verdict_refused(refusal, text);
        puts(text);
        return;
    }
    verdict_checked(&both.checked, text);
    because_of_card(&both.card, because);
    printf("%s asm %016" PRIX64 " vamp %016" PRIX64 "%s%s\n", text, digest_assembler(&both),
           digest_vamp(&both), because[0] == '\0' ? "" : " ", because);
}

/* A bundle is a sequence of (length in four bytes, that many card bytes). */
static int mode_bundle(const char *name, checked_run *run)
{
    struct bytes bundle = read_file(name);
    size_t at = 0;
    int status = 0;
    while (at < bundle.length) {
        size_t left = bundle.length - at;
        if (left < WORD_BYTES || get_word(bundle.at + at) > left - WORD_BYTES) {
            fprintf(stderr, "simulate: the bundle ends inside a card\n");
            status = EXIT_TROUBLE;
            break;
        }
        size_t length = get_word(bundle.at + at);
        print_digests(bundle.at + at + WORD_BYTES, length, run);
        at += WORD_BYTES + length;
    }
    free(bundle.at);
    return status;
}

/* ---- touches ------------------------------------------------------------- */

enum { WORD_DIGITS = 8 };

/* The value of a hex digit, or -1. */
static int digit_value(uint8_t digit)
{
    if (digit >= '0' && digit <= '9')
        return digit - '0';
    if (digit >= 'A' && digit <= 'F')
        return digit - 'A' + 10;
    if (digit >= 'a' && digit <= 'f')
        return digit - 'a' + 10;
    return -1;
}

/* Whether the line is eight hex digits; it is then the word. */
static int read_word(const uint8_t *line, size_t length, uint32_t *word)
{
    if (length != WORD_DIGITS)
        return 0;
    *word = 0;
    for (size_t i = 0; i < length; i++) {
        int value = digit_value(line[i]);
        if (value < 0)
            return 0;
        *word = *word << 4 | (uint32_t)value;
    }
    return 1;
}

/* A bad line ends the program, so that nothing is printed for a word that was not read. */
static void print_touches(const char *name)
{
    struct bytes list = read_file(name);
    size_t number = 1;
    for (size_t at = 0; at < list.length; number++) {
        const uint8_t *line = list.at + at;
        const uint8_t *end = memchr(line, '\n', list.length - at);
        size_t length = end == NULL ? list.length - at : (size_t)(end - line);
        char text[TOUCHES_TEXT];
        uint32_t word;
        if (!read_word(line, length, &word)) {
            fprintf(stderr, "simulate: line %zu is not a word of eight hex digits\n", number);
            exit(EXIT_TROUBLE);
        }
        touches_text(word, text);
        puts(text);
        at += length + 1;
    }
    free(list.at);
}

/* ---- the call ------------------------------------------------------------ */

static int usage(void)
{
    fprintf(stderr, "usage: simulate verdict [FILE...] | explain [FILE...] | dump [FILE] | bundle FILE | "
                    "fast FILE | touches [FILE...] | selftest\n");
    return EXIT_TROUBLE;
}

int main(int argc, char **argv)
{
    if (argc < 2)
        return usage();
    const char *mode = argv[1];
    if (strcmp(mode, "verdict") == 0)
        return each_file(argc - 2, argv + 2, print_verdict);
    if (strcmp(mode, "explain") == 0)
        return each_file(argc - 2, argv + 2, print_explained);
    if (strcmp(mode, "dump") == 0 && argc <= 3)
        return mode_dump(argc == 3 ? argv[2] : NULL);
    if (strcmp(mode, "bundle") == 0 && argc == 3)
        return mode_bundle(argv[2], checker_run);
    if (strcmp(mode, "fast") == 0 && argc == 3)
        return mode_bundle(argv[2], fast_run);
    if (strcmp(mode, "touches") == 0)
        return each_file(argc - 2, argv + 2, print_touches);
    if (strcmp(mode, "selftest") == 0 && argc == 2)
        return selftest() == 0 ? 0 : 1;
    return usage();
}
