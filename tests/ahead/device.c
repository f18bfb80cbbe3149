#define _POSIX_C_SOURCE 200809L

#include "device.h"

#include "firmware.h"
#include "trace.h"

#include <unistd.h>

static int32_t room;

int32_t firmware_measures(void)
{
    return room;
}

uint32_t firmware_milliseconds(void)
{
    return 0;
}

void firmware_heats(int32_t setpoint)
{
    (void)setpoint;
}

void firmware_says(const char *format, ...)
{
    (void)format;
}

void firmware_traces(const struct trace *trace)
{
    (void)trace;
}

void firmware_serves(const uint8_t setup[8], bool is_served, const uint8_t *bytes, size_t length)
{
    (void)setup, (void)is_served, (void)bytes, (void)length;
}

void device_start(enum controller_kind kind, size_t packet)
{
    firmware_start(kind, packet);
    firmware_echoes();
}

struct wire_answer device_plays(const struct play *play)
{
    struct wire_answer answer = {.handshake = HANDSHAKE_ACK};

    switch (play->what) {
    case PLAY_EVENT:
        answer = wire_event(play->event, play->packet, play->length);
        break;
    case PLAY_TURN:
        room = play->temperature;
        firmware_turn();
        break;
    case PLAY_MASK:
        controller_mask();
        break;
    case PLAY_UNMASK:
        controller_unmask();
        break;
    }
    return answer;
}

bool device_left(void)
{
    return wire_reattached();
}

void device_serve(int socket)
{
    struct play play;

    while (read(socket, &play, sizeof play) == (ssize_t)sizeof play) {
        struct wire_answer answer = device_plays(&play);

        if (write(socket, &answer, sizeof answer) != (ssize_t)sizeof answer)
            return;
    }
}
