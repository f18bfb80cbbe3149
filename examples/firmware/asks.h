/* The interrupt routine, for a controller that asks the firmware at each packet. */
#ifndef ASKS_H
#define ASKS_H

#include "controller.h"

void asks_interrupt(enum controller_event event);

#endif
