/*
 * Nivoplet reference simulator: where the bad address of a 21, 22, 25 or 26
 * came from, written from document 02 (request Seven) only.
 *
 * The run keeps a log of all its steps. What the explanation names is looked
 * for in the log after the run, from the violation backwards.
 */
#ifndef NIVOPLET_EXPLAIN_H
#define NIVOPLET_EXPLAIN_H

#include "sim.h"

/* A step that was taken. */
struct logged {
    uint32_t dpc;
    uint32_t word;
    uint8_t written;            /* the general register it wrote; 0 for none, as R0 is never written */
    uint8_t transferred;        /* 1 for a taken transfer */
};

/* All steps of a run; step k stands at k. */
struct step_log {
    uint32_t count;
    struct logged steps[STEP_LIMIT_MAX];
};

/* What a register has its value from. */
enum origin_kind { FROM_CARD, FROM_ZERO, FROM_STEP };
struct origin {
    enum origin_kind kind;
    uint32_t step;              /* of FROM_STEP */
};

enum because_kind {
    BECAUSE_NONE,               /* no explanation is given */
    BECAUSE_REGISTER,           /* 25 and 26: the register RS1 */
    BECAUSE_CARD,               /* 21 and 22: the counters of the card */
    BECAUSE_RAN_ON,             /* 21 and 22: no transfer led there */
    BECAUSE_TRANSFER,           /* 21 and 22: a taken jal, beqz or bnez */
    BECAUSE_JR                  /* 21 and 22: jr, with its register */
};
struct because {
    enum because_kind kind;
    uint32_t step;              /* of BECAUSE_TRANSFER and BECAUSE_JR */
    unsigned reg;               /* of BECAUSE_REGISTER and BECAUSE_JR */
    struct origin origin;       /* of that register */
};

/* The checked run of a started machine: it ends as checker_run's, and leaves its steps in the log. */
struct check_result logged_run(struct checker *machine, uint32_t limit, struct step_log *log);

/* The explanation of a logged run. */
struct because explain(const struct check_result *result, const struct step_log *log);

/* The second line, without its newline; empty where there is no explanation. */
enum { BECAUSE_TEXT = 160 };
void because_text(const struct because *because, const struct step_log *log, char text[BECAUSE_TEXT]);

/* The same of the run of a loaded card. */
void because_of_card(const struct card *card, char text[BECAUSE_TEXT]);

#endif
