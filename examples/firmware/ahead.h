/* The interrupt routine, for a controller that works ahead. */
#ifndef AHEAD_H
#define AHEAD_H

#include "controller.h"

void ahead_interrupt(enum controller_event event);

#endif
