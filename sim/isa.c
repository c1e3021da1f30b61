/* Nivoplet: the table of legal words; see isa.h. */
#include "isa.h"

#include <inttypes.h>
#include <stdio.h>
#include <string.h>

const struct instruction instruction_table[INSTRUCTIONS] = {
    /* R, opcode 00 */
    {"slli", 0x00, 0x00, FORM_SHIFT, 1},
    {"slai", 0x00, 0x01, FORM_SHIFT, 0},
    {"srli", 0x00, 0x02, FORM_SHIFT, 1},
    {"srai", 0x00, 0x03, FORM_SHIFT, 0},
    {"sll", 0x00, 0x04, FORM_THREE, 0},
    {"sla", 0x00, 0x05, FORM_THREE, 0},
    {"srl", 0x00, 0x06, FORM_THREE, 0},
    {"sra", 0x00, 0x07, FORM_THREE, 0},
    {"movs2i", 0x00, 0x10, FORM_FROM_SPECIAL, 1},
    {"movi2s", 0x00, 0x11, FORM_TO_SPECIAL, 1},
    {"addo", 0x00, 0x20, FORM_THREE, 0},
    {"add", 0x00, 0x21, FORM_THREE, 1},
    {"subo", 0x00, 0x22, FORM_THREE, 0},
    {"sub", 0x00, 0x23, FORM_THREE, 1},
    {"and", 0x00, 0x24, FORM_THREE, 0},
    {"or", 0x00, 0x25, FORM_THREE, 0},
    {"xor", 0x00, 0x26, FORM_THREE, 0},
    {"lhg", 0x00, 0x27, FORM_TWO, 0},
    {"clr", 0x00, 0x28, FORM_ONE, 0},
    {"sgr", 0x00, 0x29, FORM_THREE, 1},
    {"seq", 0x00, 0x2A, FORM_THREE, 0},
    {"sge", 0x00, 0x2B, FORM_THREE, 1},
    {"sls", 0x00, 0x2C, FORM_THREE, 0},
    {"sne", 0x00, 0x2D, FORM_THREE, 1},
    {"sle", 0x00, 0x2E, FORM_THREE, 0},
    {"set", 0x00, 0x2F, FORM_ONE, 0},
    /* J */
    {"j", 0x02, 0, FORM_JUMP, 0},
    {"jal", 0x03, 0, FORM_JUMP, 1},
    {"trap", 0x3E, 0, FORM_JUMP, 0},
    {"rfe", 0x3F, 0, FORM_BARE, 0},
    /* I */
    {"beqz", 0x04, 0, FORM_BRANCH, 1},
    {"bnez", 0x05, 0, FORM_BRANCH, 1},
    {"addio", 0x08, 0, FORM_IMMEDIATE, 0},
    {"addi", 0x09, 0, FORM_IMMEDIATE, 1},
    {"subio", 0x0A, 0, FORM_IMMEDIATE, 0},
    {"subi", 0x0B, 0, FORM_IMMEDIATE, 0},
    {"andi", 0x0C, 0, FORM_IMMEDIATE, 1},
    {"ori", 0x0D, 0, FORM_IMMEDIATE, 1},
    {"xori", 0x0E, 0, FORM_IMMEDIATE, 1},
    {"lhgi", 0x0F, 0, FORM_HIGH, 1},
    {"jr", 0x16, 0, FORM_JUMP_REGISTER, 1},
    {"jalr", 0x17, 0, FORM_JUMP_REGISTER, 0},
    {"clri", 0x18, 0, FORM_ONE_I, 0},
    {"sgri", 0x19, 0, FORM_IMMEDIATE, 0},
    {"seqi", 0x1A, 0, FORM_IMMEDIATE, 0},
    {"sgei", 0x1B, 0, FORM_IMMEDIATE, 0},
    {"slsi", 0x1C, 0, FORM_IMMEDIATE, 0},
    {"snei", 0x1D, 0, FORM_IMMEDIATE, 0},
    {"slei", 0x1E, 0, FORM_IMMEDIATE, 0},
    {"seti", 0x1F, 0, FORM_ONE_I, 0},
    {"lb", 0x20, 0, FORM_LOAD, 0},
    {"lh", 0x21, 0, FORM_LOAD, 0},
    {"lw", 0x23, 0, FORM_LOAD, 1},
    {"lbu", 0x24, 0, FORM_LOAD, 0},
    {"lhu", 0x25, 0, FORM_LOAD, 0},
    {"sb", 0x28, 0, FORM_STORE, 0},
    {"sh", 0x29, 0, FORM_STORE, 0},
    {"sw", 0x2B, 0, FORM_STORE, 1},
};

/* Masks of the fields. */
#define BITS_OPCODE UINT32_C(0xFC000000)
#define BITS_FUNCTION UINT32_C(0x0000003F)
#define BITS_RS1 UINT32_C(0x03E00000)
#define BITS_RS2 UINT32_C(0x001F0000)
#define BITS_RD_R UINT32_C(0x0000F800)
#define BITS_RD_I UINT32_C(0x001F0000)
#define BITS_SA UINT32_C(0x000007C0)
#define BITS_IMM_I UINT32_C(0x0000FFFF)
#define BITS_IMM_J UINT32_C(0x03FFFFFF)

const struct instruction *instruction_of(uint32_t word)
{
    unsigned opcode = word >> 26;
    unsigned function = word & BITS_FUNCTION;
    for (int i = 0; i < INSTRUCTIONS; i++) {
        const struct instruction *entry = &instruction_table[i];
        if (entry->opcode == opcode && (opcode != 0 || entry->function == function))
            return entry;
    }
    return NULL;
}

const struct instruction *instruction_named(const char *name)
{
    for (int i = 0; i < INSTRUCTIONS; i++)
        if (strcmp(instruction_table[i].name, name) == 0)
            return &instruction_table[i];
    return NULL;
}

static uint32_t form_bits(enum form form)
{
    switch (form) {
    case FORM_SHIFT: return BITS_RD_R | BITS_RS1 | BITS_SA;
    case FORM_THREE: return BITS_RD_R | BITS_RS1 | BITS_RS2;
    case FORM_TWO: return BITS_RD_R | BITS_RS1;
    case FORM_ONE: return BITS_RD_R;
    case FORM_FROM_SPECIAL: return BITS_RD_R | BITS_SA;
    case FORM_TO_SPECIAL: return BITS_SA | BITS_RS1;
    case FORM_IMMEDIATE:
    case FORM_LOAD:
    case FORM_STORE: return BITS_RD_I | BITS_RS1 | BITS_IMM_I;
    case FORM_HIGH: return BITS_RD_I | BITS_IMM_I;
    case FORM_ONE_I: return BITS_RD_I;
    case FORM_BRANCH: return BITS_RS1 | BITS_IMM_I;
    case FORM_JUMP_REGISTER: return BITS_RS1;
    case FORM_JUMP: return BITS_IMM_J;
    case FORM_BARE: return 0;
    }
    return 0;
}

uint32_t used_bits(const struct instruction *instruction)
{
    uint32_t bits = BITS_OPCODE | form_bits(instruction->form);
    return instruction->opcode == 0 ? bits | BITS_FUNCTION : bits;
}

uint32_t make_word(const struct instruction *instruction, struct fields fields)
{
    uint32_t imm = (uint32_t)fields.imm;
    uint32_t all;
    if (instruction->opcode == 0)
        all = (uint32_t)fields.rs1 << 21 | (uint32_t)fields.rs2 << 16 |
              (uint32_t)fields.rd << 11 | (uint32_t)fields.sa << 6 | instruction->function;
    else if (instruction->form == FORM_JUMP)
        all = imm & BITS_IMM_J;
    else
        all = (uint32_t)fields.rs1 << 21 | (uint32_t)fields.rd << 16 | (imm & BITS_IMM_I);
    return (all | (uint32_t)instruction->opcode << 26) & used_bits(instruction);
}

static int32_t read_imm(uint32_t word, enum form form)
{
    if (form == FORM_JUMP) {
        int32_t value = (int32_t)(word & BITS_IMM_J);
        return value >= 0x2000000 ? value - 0x4000000 : value;
    }
    int32_t value = (int32_t)(word & BITS_IMM_I);
    return value >= 0x8000 ? value - 0x10000 : value;
}

/* The fields of a word of this entry; those its form does not use hold anything. */
static struct fields read_fields(uint32_t word, const struct instruction *entry)
{
    struct fields fields;
    fields.rs1 = word >> 21 & 31;
    fields.rs2 = word >> 16 & 31;
    fields.rd = entry->opcode == 0 ? word >> 11 & 31 : word >> 16 & 31;
    fields.sa = word >> 6 & 31;
    fields.imm = read_imm(word, entry->form);
    return fields;
}

void instruction_text(uint32_t word, char text[INSTRUCTION_TEXT])
{
    const struct instruction *entry = instruction_of(word);
    if (entry == NULL) {
        snprintf(text, INSTRUCTION_TEXT, "illegal");
        return;
    }
    const char *n = entry->name;
    const struct fields fields = read_fields(word, entry);
    unsigned rs1 = fields.rs1, rs2 = fields.rs2, rd = fields.rd, sa = fields.sa;
    int32_t imm = fields.imm;
    size_t room = INSTRUCTION_TEXT;

    switch (entry->form) {
    case FORM_SHIFT: snprintf(text, room, "%s r%u,r%u,%u", n, rd, rs1, sa); break;
    case FORM_THREE: snprintf(text, room, "%s r%u,r%u,r%u", n, rd, rs1, rs2); break;
    case FORM_TWO: snprintf(text, room, "%s r%u,r%u", n, rd, rs1); break;
    case FORM_ONE:
    case FORM_ONE_I: snprintf(text, room, "%s r%u", n, rd); break;
    case FORM_FROM_SPECIAL: snprintf(text, room, "%s r%u,SPR[%u]", n, rd, sa); break;
    case FORM_TO_SPECIAL: snprintf(text, room, "%s SPR[%u],r%u", n, sa, rs1); break;
    case FORM_IMMEDIATE: snprintf(text, room, "%s r%u,r%u,%" PRId32, n, rd, rs1, imm); break;
    case FORM_HIGH: snprintf(text, room, "%s r%u,%" PRId32, n, rd, imm); break;
    case FORM_LOAD: snprintf(text, room, "%s r%u,r%u(%" PRId32 ")", n, rd, rs1, imm); break;
    case FORM_STORE: snprintf(text, room, "%s r%u(%" PRId32 "),r%u", n, rs1, imm, rd); break;
    case FORM_BRANCH: snprintf(text, room, "%s r%u,%" PRId32, n, rs1, imm); break;
    case FORM_JUMP_REGISTER: snprintf(text, room, "%s r%u", n, rs1); break;
    case FORM_JUMP: snprintf(text, room, "%s %" PRId32, n, imm); break;
    case FORM_BARE: snprintf(text, room, "%s", n); break;
    }
}

/* ---- what a word touches ------------------------------------------------- */

/* The register of the link, R31 of jal and jalr; 0 for j, trap and jr, which share their forms. */
static unsigned link_of(const struct instruction *entry)
{
    enum { JAL = 0x03, JALR = 0x17, LINK = 31 };
    return entry->opcode == JAL || entry->opcode == JALR ? LINK : 0;
}

static void add_read(struct touches *touches, unsigned reg)
{
    touches->read[touches->reads] = reg;
    touches->reads++;
}

static void set_special(struct touches *touches, enum special_kind kind, unsigned number)
{
    touches->special = kind;
    touches->number = number;
}

/* A row for each form: what stands there as a source is read, and as a target is written. */
static struct touches form_touches(const struct instruction *entry, struct fields fields)
{
    struct touches touches = {0, {0, 0}, 0, SPECIAL_NONE, 0};
    switch (entry->form) {
    case FORM_THREE:
        add_read(&touches, fields.rs1);
        add_read(&touches, fields.rs2);
        touches.written = fields.rd;
        break;
    case FORM_SHIFT:
    case FORM_TWO:
    case FORM_IMMEDIATE:
    case FORM_LOAD:
        add_read(&touches, fields.rs1);
        touches.written = fields.rd;
        break;
    case FORM_ONE:
    case FORM_ONE_I:
    case FORM_HIGH:
        touches.written = fields.rd;
        break;
    case FORM_FROM_SPECIAL:
        touches.written = fields.rd;
        set_special(&touches, SPECIAL_READ, fields.sa);
        break;
    case FORM_TO_SPECIAL:
        add_read(&touches, fields.rs1);
        set_special(&touches, SPECIAL_WRITTEN, fields.sa);
        break;
    case FORM_STORE:
        add_read(&touches, fields.rs1);
        add_read(&touches, fields.rd);
        break;
    case FORM_BRANCH:
        add_read(&touches, fields.rs1);
        break;
    case FORM_JUMP_REGISTER:
        add_read(&touches, fields.rs1);
        touches.written = link_of(entry);
        break;
    case FORM_JUMP:
        touches.written = link_of(entry);
        break;
    case FORM_BARE:
        set_special(&touches, SPECIAL_RETURN, 0);
        break;
    }
    return touches;
}

struct touches touches_of(uint32_t word)
{
    static const struct touches nothing = {0, {0, 0}, 0, SPECIAL_NONE, 0};
    const struct instruction *entry = instruction_of(word);
    return entry == NULL ? nothing : form_touches(entry, read_fields(word, entry));
}

/* The parts of the line, each with a blank before it, or empty. */
enum { PART_TEXT = 24 };

static void reads_text(const struct touches *touches, char text[PART_TEXT])
{
    switch (touches->reads) {
    case 0: text[0] = '\0'; break;
    case 1: snprintf(text, PART_TEXT, " reads r%u", touches->read[0]); break;
    default: snprintf(text, PART_TEXT, " reads r%u r%u", touches->read[0], touches->read[1]); break;
    }
}

static void writes_text(const struct touches *touches, char text[PART_TEXT])
{
    text[0] = '\0';
    if (touches->written != 0)
        snprintf(text, PART_TEXT, " writes r%u", touches->written);
}

static void special_text(const struct touches *touches, char text[PART_TEXT])
{
    switch (touches->special) {
    case SPECIAL_NONE: text[0] = '\0'; break;
    case SPECIAL_READ: snprintf(text, PART_TEXT, " spr %u read", touches->number); break;
    case SPECIAL_WRITTEN: snprintf(text, PART_TEXT, " spr %u written", touches->number); break;
    case SPECIAL_RETURN: snprintf(text, PART_TEXT, " return"); break;
    }
}

void touches_text(uint32_t word, char text[TOUCHES_TEXT])
{
    char reads[PART_TEXT], writes[PART_TEXT], special[PART_TEXT];
    if (instruction_of(word) == NULL) {
        snprintf(text, TOUCHES_TEXT, "%08" PRIX32 " 23", word);
        return;
    }
    const struct touches touches = touches_of(word);
    reads_text(&touches, reads);
    writes_text(&touches, writes);
    special_text(&touches, special);
    snprintf(text, TOUCHES_TEXT, "%08" PRIX32 "%s%s%s", word, reads, writes, special);
}
