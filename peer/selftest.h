/* What the parts of the self test share. */
#ifndef PEER_SELFTEST_H
#define PEER_SELFTEST_H

#include <stdbool.h>

/* Ends the test where something does not hold. */
void expect(bool holds, const char *what);

void cut_cases(void);
void entry_cases(void);
void event_cases(void);
void starting(void);
void clock_cases(void);

#endif
