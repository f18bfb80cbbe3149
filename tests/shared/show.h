/* What the tests show of a call that is not right. */
#ifndef SHOW_H
#define SHOW_H

#include "tewennos.h"

void show_bytes(const char *name, const uint8_t *bytes, size_t length);
void show_unit(const char *name, const struct tmc_unit *unit);
void show_answer(const char *name, struct tmc_answer answer);

/* Says where two stretches of bytes differ, if they do. */
void show_difference(const char *name, const uint8_t *is, const uint8_t *to_be, size_t length);

#endif
