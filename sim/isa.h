/*
 * Nivoplet: a table of the 58 legal words, to make and to print them, and to
 * say which registers each reads and writes (document 02, request Six).
 * The machines in sim.c do not use it; the self-test compares the two.
 */
#ifndef NIVOPLET_ISA_H
#define NIVOPLET_ISA_H

#include <stdint.h>

/* Which fields an instruction uses, by its syntax in tables 1.2 to 1.4. */
enum form {
    FORM_SHIFT,                 /* R: RD,RS1,SA */
    FORM_THREE,                 /* R: RD,RS1,RS2 */
    FORM_TWO,                   /* R: RD,RS1 */
    FORM_ONE,                   /* R: RD */
    FORM_FROM_SPECIAL,          /* R: RD,SPR[SA] */
    FORM_TO_SPECIAL,            /* R: SPR[SA],RS1 */
    FORM_IMMEDIATE,             /* I: RD,RS1,imm */
    FORM_HIGH,                  /* I: RD,imm */
    FORM_ONE_I,                 /* I: RD */
    FORM_LOAD,                  /* I: RD,RS1(imm) */
    FORM_STORE,                 /* I: RS1(imm),RD */
    FORM_BRANCH,                /* I: RS1,imm */
    FORM_JUMP_REGISTER,         /* I: RS1 */
    FORM_JUMP,                  /* J: imm */
    FORM_BARE                   /* J: nothing */
};

struct instruction {
    const char *name;
    unsigned opcode;
    unsigned function;          /* meant only when the opcode is 00 */
    enum form form;
    int assembler;              /* 1 when the assembler machine runs it */
};

enum { INSTRUCTIONS = 58, ASSEMBLER_INSTRUCTIONS = 20 };
extern const struct instruction instruction_table[INSTRUCTIONS];

/* Values of the fields; those a form does not use are ignored. */
struct fields {
    unsigned rd, rs1, rs2, sa;
    int32_t imm;
};

/* The entry of a legal word, or a null pointer for an illegal one. */
const struct instruction *instruction_of(uint32_t word);
const struct instruction *instruction_named(const char *name);

/* The bits of the word that mean something. */
uint32_t used_bits(const struct instruction *instruction);

/* The word, with every unused bit zero. */
uint32_t make_word(const struct instruction *instruction, struct fields fields);

/* The text of a word, in the syntax of the tables. */
enum { INSTRUCTION_TEXT = 48 };
void instruction_text(uint32_t word, char text[INSTRUCTION_TEXT]);

/* What a word has to do with the special registers. */
enum special_kind {
    SPECIAL_NONE,
    SPECIAL_READ,               /* movs2i */
    SPECIAL_WRITTEN,            /* movi2s */
    SPECIAL_RETURN              /* rfe: SR takes ESR, and the counters take EPC and EDPC */
};

/*
 * Which registers a word touches, by its syntax: a register that it names and
 * makes no use of, as sub r1,r2,r2 does of R2, counts all the same.
 */
enum { READS_MAX = 2 };
struct touches {
    unsigned reads;             /* how many general registers are read */
    unsigned read[READS_MAX];   /* RS1, then RS2 or a store's RD; R0 and repeats too */
    unsigned written;           /* the general register written; 0 for none, as R0 is never written */
    enum special_kind special;
    unsigned number;            /* of SPECIAL_READ and SPECIAL_WRITTEN: what SA says, used or not */
};

/* An illegal word touches nothing. */
struct touches touches_of(uint32_t word);

/* The word and what it touches, or 23 for an illegal word. */
enum { TOUCHES_TEXT = 80 };
void touches_text(uint32_t word, char text[TOUCHES_TEXT]);

#endif
