/*
 * Nivoplet: random programs for run cards. A draft is a card in the making
 * with the random numbers it draws from.
 */
#ifndef NIVOPLET_PROGRAM_H
#define NIVOPLET_PROGRAM_H

#include "sim.h"

#include <stdint.h>

/* What a program shall run into. 21 to 27 are the checker's violations. */
enum event {
    EVENT_NONE = 0,
    EVENT_21 = 21, EVENT_22, EVENT_23, EVENT_24, EVENT_25, EVENT_26, EVENT_27,
    EVENT_TRAP,                 /* the rest are events of the VAMP machine */
    EVENT_OVERFLOW,
    EVENT_PAST_MEMORY,
    EVENT_NARROW_MISALIGNED,    /* a half word access at an odd address */
    EVENT_COUNT
};

enum { SUBROUTINES_MAX = 6 };

struct subroutine {
    uint32_t index;             /* of its first word in the code */
    int leaf;
};

struct draft {
    uint64_t random;            /* state of the random numbers */
    struct card card;
    uint32_t at;                /* next free code word */
    uint32_t reserve;           /* words kept for the ends of open blocks */
    unsigned other_percent;     /* share of words the checker does not run */
    int keep_masked;            /* SR bit 6 stays 0, so overflow is masked */
    enum event event;           /* still to be placed */
    unsigned kept;              /* a register that the program's own words leave alone; 0 for none */
    struct subroutine subroutines[SUBROUTINES_MAX];
    int subroutine_count;
};

/* Random numbers. */
uint32_t draw(struct draft *draft);                         /* any word */
uint32_t below(struct draft *draft, uint32_t bound);        /* 0 to bound - 1 */
uint32_t between(struct draft *draft, uint32_t low, uint32_t high);
int chance(struct draft *draft, unsigned percent);
uint32_t value(struct draft *draft);                        /* often a telling one */

/* Parts of a card. */
void draw_regions(struct draft *draft, uint32_t code_words, uint32_t data_words);
void draw_usual_regions(struct draft *draft);
void draw_registers(struct draft *draft);
void draw_data(struct draft *draft);
uint32_t draw_limit(struct draft *draft);

/* Whole programs over the regions drawn before. */
void draw_program(struct draft *draft);                     /* loops, calls, memory */
void draw_random_words(struct draft *draft);                /* no plan at all */
void draw_tiny_loop(struct draft *draft);                   /* one word for ever */
void draw_traced(struct draft *draft, int brief);           /* 21, 22, 25 or 26 by a chosen origin; the limit too */

/* Junk in every unused field of the code. */
void fill_unused_fields(struct draft *draft);

#endif
