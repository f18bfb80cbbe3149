/* The example's device, to be played: here, or in a process of its own, since the firmware has its state to itself. */
#ifndef DEVICE_H
#define DEVICE_H

#include "controller.h"

enum played { PLAY_EVENT, PLAY_TURN, PLAY_MASK, PLAY_UNMASK };

struct play {
    enum played what;
    enum controller_event event; /* of PLAY_EVENT, as the packet is */
    size_t length;
    uint8_t packet[CONTROLLER_LARGEST];
    int32_t temperature; /* of PLAY_TURN: what the room is at */
};

/* A device that gives every message back. */
void device_start(enum controller_kind kind, size_t packet);
struct wire_answer device_plays(const struct play *play);

/* The same in another process: it is told and answers by a socket, and ends when that is closed. */
void device_serve(int socket);

/* Whether it left the bus: a unit was overwritten, which nothing here does. */
bool device_left(void);

#endif
