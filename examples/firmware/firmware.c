#include "firmware.h"

#include "ahead.h"
#include "asks.h"
#include "port.h"
#include "thermostat.h"

#include <string.h>

static struct {
    int32_t setpoint; /* in thousandths of a degree */
    bool at_setpoint; /* the room is */
    bool refused;     /* the last message was */
    bool asks;        /* for service, and the port does not know yet */
    bool echoes;

    enum request question; /* being worked on, or NOTHING_ASKED */
    uint32_t asked_at;     /* on the clock */
    uint32_t generation;   /* of the message that is being worked on, or answered */
    uint8_t answer[TMC_STORE];
    size_t answer_length; /* 0: there is none in hand */
} loop;

void firmware_start(enum controller_kind kind, size_t packet)
{
    memset(&loop, 0, sizeof loop);
    loop.setpoint = 20000;
    controller_start(kind, packet, kind == CONTROLLER_ASKS ? asks_interrupt : ahead_interrupt);
    port_start();
}

void firmware_echoes(void)
{
    loop.echoes = true;
}

static void put_answer_away(void)
{
    if (loop.answer_length != 0)
        firmware_says("puts an answer of %zu bytes away, which nobody fetched: a new message is here", loop.answer_length);
    loop.answer_length = 0;
}

/* A command is carried out at once; a question is worked on in the turns that follow. */
static void do_message(const uint8_t *message, size_t length)
{
    int32_t degrees;
    enum request request = thermostat_reads(message, length, &degrees);

    loop.question = NOTHING_ASKED;
    loop.refused = request == REFUSED;
    if (request == SET_SETPOINT) {
        loop.setpoint = degrees;
        firmware_heats(degrees);
        firmware_says("sets the setpoint to %ld thousandths of a degree", (long)degrees);
    } else if (request == REFUSED) {
        loop.asks = true;
        firmware_says("refuses it");
    } else {
        loop.question = request;
        loop.asked_at = firmware_milliseconds();
    }
}

static void echo_message(const uint8_t *message, size_t length)
{
    memcpy(loop.answer, message, length);
    loop.answer_length = length;
}

/* Always before anything is offered. A message that stays in the port holds the host's next request back (5, NAK): a loop that first
   waited for its answer to be fetched would wait for ever. */
static bool take_message(void)
{
    uint8_t message[TMC_STORE];
    size_t length = port_take(message, sizeof message, &loop.generation);

    if (length == 0)
        return false;
    firmware_says("takes \"%.*s\"", (int)thermostat_text(message, length), (const char *)message);
    put_answer_away();
    if (loop.echoes)
        echo_message(message, length);
    else
        do_message(message, length);
    return true;
}

static bool is_worked_out(void)
{
    return loop.question != NOTHING_ASKED && firmware_milliseconds() - loop.asked_at >= thermostat_takes(loop.question);
}

/* Takes a turn of the loop for itself, or many, in which the host can do anything. */
static void work(void)
{
    loop.answer_length = thermostat_answers(loop.question, loop.setpoint, firmware_measures(), loop.answer, sizeof loop.answer);
    loop.question = NOTHING_ASKED;
    firmware_says("has worked out an answer of %zu bytes", loop.answer_length);
}

static void offer_answer(void)
{
    switch (port_offer(loop.generation, loop.answer, loop.answer_length)) {
    case PORT_OFFERED:
        firmware_says("hands the answer over to the port");
        loop.answer_length = 0;
        break;
    case PORT_STALE:
        firmware_says("throws the answer away: the host gave its question up");
        loop.answer_length = 0;
        break;
    case PORT_NOT_YET:
        break;
    }
}

static void watch_room(void)
{
    bool was_at_setpoint = loop.at_setpoint;

    loop.at_setpoint = thermostat_is_at(firmware_measures(), loop.setpoint);
    if (loop.at_setpoint && !was_at_setpoint) {
        loop.asks = true;
        firmware_says("finds the room at its setpoint");
    }
}

/* A host begins anew, or another one comes. What the last one sent, and how it was answered, is none of its business; that the room is at its setpoint is. */
static void begin_anew(void)
{
    bool lost_request;

    if (!port_began_anew(&lost_request))
        return;
    loop.refused = false;
    if (lost_request && loop.at_setpoint)
        loop.asks = true;
}

/* In every turn: SET_CONFIGURATION and a reset leave a status byte of 0. A request that cannot be made yet, since no host has configured
   the device, is made when one has. */
static void tell_status(void)
{
    uint8_t bits = (uint8_t)((loop.refused ? STATUS_COMMAND_ERROR : 0) | (loop.at_setpoint ? STATUS_AT_SETPOINT : 0));

    if (!port_set_status(bits, loop.asks))
        return;
    if (loop.asks)
        firmware_says("asks for service, with %02x in the status byte", bits);
    loop.asks = false;
}

static void do_what_was_told(void)
{
    if (port_triggered())
        firmware_says("is triggered");
    if (port_pulsed())
        firmware_says("pulses its light");
}

void firmware_turn(void)
{
    begin_anew();
    if (!take_message()) {
        if (is_worked_out())
            work();
        if (loop.answer_length != 0)
            offer_answer();
    }
    watch_room();
    tell_status();
    do_what_was_told();
}
