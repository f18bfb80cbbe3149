/* The main loop. */
#ifndef FIRMWARE_H
#define FIRMWARE_H

#include "controller.h"

void firmware_start(enum controller_kind kind, size_t packet);

/* One turn of the loop. On the instrument: firmware_start(..); for (;;) firmware_turn(); */
void firmware_turn(void);

/* From here on every message is given back as it came, and none is carried out: for a test of the way. */
void firmware_echoes(void);

/* The room's temperature, in thousandths of a degree, and a clock: whoever plays the firmware has them. On the instrument a sensor and a timer have. */
int32_t firmware_measures(void);
uint32_t firmware_milliseconds(void);

/* The oven, which brings the room to the setpoint. */
void firmware_heats(int32_t setpoint);

/* A line of words about what the thermostat does, for whoever plays it. On the instrument it would be empty. */
#ifdef __GNUC__
__attribute__((format(printf, 1, 2)))
#endif
void firmware_says(const char *format, ...);

#endif
