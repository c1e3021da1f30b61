/* Nivoplet reference simulator: the hand-checked cases. */
#ifndef NIVOPLET_SELFTEST_H
#define NIVOPLET_SELFTEST_H

/* Prints each case with ok or FAIL; answers the number of failures. */
int selftest(void);

#endif
