/* The worked cases. */
#ifndef Cases_h
#define Cases_h

#include "rawdhusaq.h"

void worked_cases(void);

/* Each field as it is at power-on. */
void check_power_on(const RawdhusaqState *state);

#endif
