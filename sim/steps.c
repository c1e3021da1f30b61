/*
 * Runs the card on standard input on one machine and prints the steps taken,
 * so that tools/cost can count the instructions of a step:
 *
 *     steps checker < CARD     the plain checker of sim.c
 *     steps fast < CARD        the fast one of fast.c
 *     steps vamp < CARD
 */
#include "fast.h"
#include "sim.h"

#include <inttypes.h>
#include <stdio.h>
#include <string.h>

static uint8_t bytes[CARD_BYTES_MAX + 1];
static struct card card;
static struct checker checker;
static struct vamp vamp;

static uint32_t steps_of(const char *machine, const struct card *card)
{
    if (strcmp(machine, "vamp") == 0) {
        vamp_start(&vamp, card);
        return vamp_run(&vamp, card->limit).steps;
    }
    checker_start(&checker, card);
    if (strcmp(machine, "fast") == 0)
        return fast_run(&checker, card->limit).steps;
    return checker_run(&checker, card->limit).steps;
}

static int is_machine(const char *word)
{
    return strcmp(word, "checker") == 0 || strcmp(word, "fast") == 0 || strcmp(word, "vamp") == 0;
}

int main(int count, char **words)
{
    if (count != 2 || !is_machine(words[1])) {
        fputs("usage: steps checker|fast|vamp < CARD\n", stderr);
        return 2;
    }
    size_t length = fread(bytes, 1, sizeof bytes, stdin);
    int refused = card_load(bytes, length, &card);
    if (refused != REFUSED_NOT) {
        fprintf(stderr, "steps: the card is refused, %d\n", refused);
        return 1;
    }
    printf("%" PRIu32 "\n", steps_of(words[1], &card));
    return 0;
}
