/*
 * Nivoplet reference simulator: the loader, the checker (assembler machine)
 * and the VAMP machine (fixed-point core), written from document 01 only.
 *
 * Numbers named "document 01" below stand in 01-scope.md.
 */
#ifndef NIVOPLET_SIM_H
#define NIVOPLET_SIM_H

#include <stddef.h>
#include <stdint.h>

enum {
    MEMORY_BYTES = 16384,       /* modelled memory is bytes 0 to 16,383 */
    REGION_WORDS_MAX = 1024,    /* most words of code, and of data */
    REGISTERS = 32,             /* general registers, special registers */
    LINK_REGISTER = 31,         /* written by jal and jalr */
    STEP_LIMIT_MAX = 1000000,
    WORD_BYTES = 4
};

/* Places of the fields in a run card, in bytes. */
enum {
    CARD_MARK = 0,
    CARD_VERSION = 3,
    CARD_ZEROS = 5,
    CARD_CODE_START = 8,
    CARD_CODE_WORDS = 12,
    CARD_DATA_START = 16,
    CARD_DATA_WORDS = 20,
    CARD_DPC = 24,
    CARD_PC = 28,
    CARD_LIMIT = 32,
    CARD_GPR = 36,
    CARD_SPR = 164,
    CARD_BODY = 292             /* also the length of the head */
};

/* Special registers with a use. The other numbers read zero. */
enum {
    SPR_SR = 0, SPR_ESR = 1, SPR_ECA = 2, SPR_EPC = 3, SPR_EDPC = 4,
    SPR_EDATA = 5, SPR_RM = 6, SPR_IEEEF = 7, SPR_FCC = 8, SPR_PTO = 9,
    SPR_PTL = 10, SPR_EMODE = 11, SPR_MODE = 16
};

/* Refusals of the loader. Number 1 (lent buffers) cannot occur here. */
enum {
    REFUSED_NOT = 0,
    REFUSED_SHORT = 2,
    REFUSED_MARK = 3,
    REFUSED_VERSION = 4,
    REFUSED_ZEROS = 5,
    REFUSED_COUNTS = 6,
    REFUSED_LENGTH = 7,
    REFUSED_ALIGNMENT = 8,
    REFUSED_END = 9,
    REFUSED_OVERLAP = 10,
    REFUSED_REGISTERS = 11,
    REFUSED_LIMIT = 12
};

/* Answers of a checked step. */
enum {
    CHECK_OK = 0,
    CHECK_DPC_ALIGNMENT = 21,
    CHECK_DPC_REGION = 22,
    CHECK_ILLEGAL = 23,
    CHECK_NOT_ASSEMBLER = 24,
    CHECK_EA_ALIGNMENT = 25,
    CHECK_EA_REGION = 26,
    CHECK_MODE = 27
};

/* Answers of a VAMP step, and the cause bits that can be set. */
enum {
    VAMP_STEPPED = 0,
    VAMP_INTERRUPT = 31,
    VAMP_PAST_MEMORY = 32,
    VAMP_MODE = 33
};
enum {
    CAUSE_ILLEGAL = 1 << 1,
    CAUSE_MISALIGNED = 1 << 2,
    CAUSE_TRAP = 1 << 5,
    CAUSE_OVERFLOW = 1 << 6
};

/*
 * One flat number for each instruction: the opcode, or FUNCTION_BASE plus
 * the function number when the opcode is 00.
 */
enum { FUNCTION_BASE = 0x40, INSTRUCTION_NUMBERS = 0x80 };
enum {
    OP_J = 0x02, OP_JAL = 0x03, OP_BEQZ = 0x04, OP_BNEZ = 0x05,
    OP_ADDIO = 0x08, OP_ADDI = 0x09, OP_SUBIO = 0x0A, OP_SUBI = 0x0B,
    OP_ANDI = 0x0C, OP_ORI = 0x0D, OP_XORI = 0x0E, OP_LHGI = 0x0F,
    OP_JR = 0x16, OP_JALR = 0x17,
    OP_CLRI = 0x18, OP_SGRI = 0x19, OP_SEQI = 0x1A, OP_SGEI = 0x1B,
    OP_SLSI = 0x1C, OP_SNEI = 0x1D, OP_SLEI = 0x1E, OP_SETI = 0x1F,
    OP_LB = 0x20, OP_LH = 0x21, OP_LW = 0x23, OP_LBU = 0x24, OP_LHU = 0x25,
    OP_SB = 0x28, OP_SH = 0x29, OP_SW = 0x2B,
    OP_TRAP = 0x3E, OP_RFE = 0x3F,

    FN_SLLI = FUNCTION_BASE + 0x00, FN_SLAI = FUNCTION_BASE + 0x01,
    FN_SRLI = FUNCTION_BASE + 0x02, FN_SRAI = FUNCTION_BASE + 0x03,
    FN_SLL = FUNCTION_BASE + 0x04, FN_SLA = FUNCTION_BASE + 0x05,
    FN_SRL = FUNCTION_BASE + 0x06, FN_SRA = FUNCTION_BASE + 0x07,
    FN_MOVS2I = FUNCTION_BASE + 0x10, FN_MOVI2S = FUNCTION_BASE + 0x11,
    FN_ADDO = FUNCTION_BASE + 0x20, FN_ADD = FUNCTION_BASE + 0x21,
    FN_SUBO = FUNCTION_BASE + 0x22, FN_SUB = FUNCTION_BASE + 0x23,
    FN_AND = FUNCTION_BASE + 0x24, FN_OR = FUNCTION_BASE + 0x25,
    FN_XOR = FUNCTION_BASE + 0x26, FN_LHG = FUNCTION_BASE + 0x27,
    FN_CLR = FUNCTION_BASE + 0x28, FN_SGR = FUNCTION_BASE + 0x29,
    FN_SEQ = FUNCTION_BASE + 0x2A, FN_SGE = FUNCTION_BASE + 0x2B,
    FN_SLS = FUNCTION_BASE + 0x2C, FN_SNE = FUNCTION_BASE + 0x2D,
    FN_SLE = FUNCTION_BASE + 0x2E, FN_SET = FUNCTION_BASE + 0x2F
};

struct registers {
    uint32_t dpc;
    uint32_t pc;                /* PC' of the document */
    uint32_t gpr[REGISTERS];
    uint32_t spr[REGISTERS];
};

/* What a card says, after loading. All zero after a refusal. */
struct card {
    uint32_t code_start;
    uint32_t code_words;
    uint32_t data_start;
    uint32_t data_words;
    uint32_t limit;
    struct registers regs;
    uint8_t code[WORD_BYTES * REGION_WORDS_MAX];
    uint8_t data[WORD_BYTES * REGION_WORDS_MAX];
};

/* The assembler machine. The card's regions and code never change. */
struct checker {
    struct card card;
    struct registers regs;
    uint8_t data[WORD_BYTES * REGION_WORDS_MAX];
};

struct vamp {
    struct registers regs;
    uint8_t memory[MEMORY_BYTES];
};

/* How a checked run ended. */
struct check_result {
    uint32_t steps;             /* steps taken, k for a violation */
    int answer;                 /* 0 accepted, else 21 to 27 */
    uint32_t dpc;               /* after the steps taken */
    uint32_t word;              /* the word at DPC, for 23 to 27 */
};

struct vamp_answer {
    int answer;                 /* 0, 31, 32 or 33 */
    uint32_t cause;             /* CA, 0 for 32 and 33 */
};

/* How a VAMP run ended. */
struct vamp_result {
    uint32_t steps;
    struct vamp_answer last;    /* 0 and cause 0 when the limit was reached */
    uint32_t masked;            /* steps taken that reported a cause */
};

/* Little-endian words in byte arrays. */
uint32_t get_word(const uint8_t *bytes);
void put_word(uint8_t *bytes, uint32_t value);

/* The flat number of the word's instruction, legal or not. */
unsigned instruction_number(uint32_t word);

/* Loads a card; answers 0 or the refusal, 2 to 12. */
int card_load(const uint8_t *bytes, size_t length, struct card *card);

/* The bytes of a card, for makers of cards; answers their number. */
enum { CARD_BYTES_MAX = CARD_BODY + 2 * WORD_BYTES * REGION_WORDS_MAX };
size_t card_write(const struct card *card, uint8_t bytes[CARD_BYTES_MAX]);

void checker_start(struct checker *machine, const struct card *card);
/* One checked step; answers 0 or 21 to 27 with nothing changed. */
int checker_step(struct checker *machine);
struct check_result checker_run(struct checker *machine, uint32_t limit);

void vamp_start(struct vamp *machine, const struct card *card);
/* One step; answers other than 0 change nothing. */
struct vamp_answer vamp_step(struct vamp *machine);
struct vamp_result vamp_run(struct vamp *machine, uint32_t limit);

/* The verdict line, without its newline. */
enum { VERDICT_TEXT = 80 };
void verdict_refused(int number, char text[VERDICT_TEXT]);
void verdict_checked(const struct check_result *result, char text[VERDICT_TEXT]);
void verdict_of_card(const uint8_t *bytes, size_t length, char text[VERDICT_TEXT]);

#endif
