/* checked.h: systems whose bodies must do what their texts do. */
#ifndef FMP_CHECKED_H
#define FMP_CHECKED_H

#include "system.h"

/* The system of the image of a program takes the place of that of its configuration, which is at hand. */
enum fmp_opened fmp_checked_make(const struct fmp_program *, FILE *messages);

/* Says what the body that acts on a processor wishes, and what its text does next instead. */
void fmp_checked_complain(uint8_t p, const struct flow *, FILE *messages);

#endif
