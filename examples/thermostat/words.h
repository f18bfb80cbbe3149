/* What is on the wire, in words. */
#ifndef WORDS_H
#define WORDS_H

#include "trace.h"

/* A number of document 01's table. */
const char *words_of_number(unsigned number);

/* Each writes into `words`, of `room` bytes, and what does not fit is left out. */
void words_of_setup(char *words, size_t room, const uint8_t setup[8]);
void words_of_setup_answer(char *words, size_t room, const uint8_t setup[8], const uint8_t *bytes, size_t length);
void words_of_packet(char *words, size_t room, const uint8_t *packet, size_t length, bool begins);
void words_of_interrupt(char *words, size_t room, const uint8_t *packet);

/* In quotation marks, with a dot for what is no character. */
void words_of_text(char *words, size_t room, const uint8_t *text, size_t length);

#endif
