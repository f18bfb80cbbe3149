/* The instrument: what its messages say. The port reads no text. */
#ifndef THERMOSTAT_H
#define THERMOSTAT_H

#include <stdbool.h>
#include <stddef.h>
#include <stdint.h>

enum request { NOTHING_ASKED, SET_SETPOINT, ASK_IDENTITY, ASK_SETPOINT, ASK_TEMPERATURE, REFUSED };

/* What a message asks: `*IDN?`, `SETP?`, `TEMP?`, or `SETP` and a number of degrees, which goes to `thousandths`; with or without a newline
   behind it. Anything else is refused: a text that is not wholly understood is not acted on in part. */
enum request thermostat_reads(const uint8_t *message, size_t length, int32_t *thousandths);

/* How much of a message is text that can be shown: all but its newline, up to the first byte that is no character. */
size_t thermostat_text(const uint8_t *message, size_t length);

/* How long a question is worked on, in milliseconds: the sensor takes its time. */
uint32_t thermostat_takes(enum request question);

/* The answer to a question, in `answer`; its length. */
size_t thermostat_answers(enum request question, int32_t setpoint, int32_t temperature, uint8_t *answer, size_t room);

/* What the status byte says. The host is asked for service when the room comes to its setpoint, and at each message that cannot be carried
   out. */
enum thermostat_status {
    STATUS_AT_SETPOINT = 0x01,  /* the room is at its setpoint */
    STATUS_COMMAND_ERROR = 0x20 /* the last message could not be carried out */
};

/* Whether a room of that temperature is at its setpoint: a tenth of a degree more or less is. */
bool thermostat_is_at(int32_t temperature, int32_t setpoint);

#endif
