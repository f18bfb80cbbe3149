/* Between the controller and the library: what the wire brings goes into the unit, and what the unit answers goes on the wire.

   The late answer. A question is taken, and while the thermostat works on it the host gives up: it aborts its read, or clears. The port
   drops what it has, but it has nothing of that question any more, and no call tells the thermostat. Without a guard the answer would be
   offered all the same, lie in the reply store, and go out as the answer to the next question.

   So the interrupt routine counts a generation up whenever the port drops its reply, or would have dropped one. A message is taken with
   the generation of that moment, and its answer is offered only while it is still the generation. The look and the call are made in one
   piece, with the interrupt masked.

   The unread answer. A host that asks, does not read and asks again would meet the same, without any abort: no call takes a stored reply
   back. So an answer stays with the main loop until a request of the host waits for it (in_phase), and a new message puts it away. What
   is left is a host that has fetched a part of an answer and asks something else: the rest comes first, unless it clears.

   The lost request. SET_CONFIGURATION and reset drop a service request that waits. The host that comes then may be another one. So the main loop is
   told, and asks again for what is still so.

   The kept request. While a packet of Interrupt-IN waits, bit 6 of the status byte that the unit holds is the next service request, and a
   byte that is set without it takes the request back. So the main loop sets the other bits, and bit 6 stays as it is held. */
#include "port.h"

#include "trace.h"

#include <string.h>

#define ASKS_SERVICE 0x40u /* bit 6 of the status byte */

static struct {
    struct tmc_unit unit;
    uint32_t generation;
    bool triggered;
    bool pulsed;
    bool began_anew;
    bool lost_request;
} port;

static bool begins; /* a bulk transfer, with the packet of this call */

static struct tmc_answer traced(enum traced call, const uint8_t *given, size_t given_length, struct tmc_answer answer, const uint8_t *bytes)
{
    const struct trace trace = {call, given, given_length, answer, bytes, begins};

    firmware_traces(&trace);
    return answer;
}

/* The interrupt routine's calls. */

static void power_on(void)
{
    const uint16_t size = (uint16_t)controller_packet_size();
    const uint8_t given[2] = {(uint8_t)size, (uint8_t)(size >> 8)};

    traced(TRACED_POWER_ON, given, sizeof given, tmc_power_on(&port.unit, size), NULL);
}

/* A unit that is none any more: something wrote over it. It starts from nothing, and so must the host. */
static void start_over(void)
{
    power_on();
    port.generation++;
    controller_reattach();
}

/* What an answer means on a bulk endpoint or Interrupt-IN. 2 and 3 do not come where the endpoints are off until SET_CONFIGURATION, and
   have the size that the unit was powered on for. */
static enum handshake handshake_of(struct tmc_answer answer)
{
    switch (answer.number) {
    case TMC_NUMBER_DONE:
        return HANDSHAKE_ACK;
    case TMC_NUMBER_WAIT:
        return HANDSHAKE_NAK;
    default:
        return HANDSHAKE_STALL;
    }
}

static void note_what_it_tells(struct tmc_answer answer)
{
    if (answer.tells == TMC_TELLS_TRIGGER)
        port.triggered = true;
    if (answer.tells == TMC_TELLS_PULSE)
        port.pulsed = true;
}

/* A host waits for its answer: it has asked, and the last byte has not gone. */
static bool is_reading(void)
{
    return port.unit.in_phase == TMC_PHASE_ASKED || port.unit.in_phase == TMC_PHASE_SENDING;
}

/* Whether a setup packet that was answered 0 is one with which a reply goes. An abort of Bulk-OUT and the end of its halt are none: they
   drop a message that was never taken, and the answer to an earlier one is still wanted. */
static bool drops_reply(const uint8_t *packet, const uint8_t *answered, bool was_reading)
{
    unsigned request = (unsigned)packet[0] << 8 | packet[1];

    switch (request) {
    case 0x0009: /* SET_CONFIGURATION */
        return true;
    case 0xA105: /* INITIATE_CLEAR */
    case 0xA203: /* INITIATE_ABORT_BULK_IN */
        return answered[0] == TMC_STATUS_SUCCESS;
    case 0x0201: /* CLEAR_FEATURE: on Bulk-IN, it ends a read that is on its way */
        return packet[4] == 0x82 && was_reading;
    default:
        return false;
    }
}

/* Before a call with which the unit's side of Interrupt-IN is as at power-on: 0x81 is a service request that waits, and bit 6 one that is kept. */
static bool has_request(void)
{
    return port.unit.notify1 == 0x81 || (port.unit.status & ASKS_SERVICE) != 0;
}

static void note_beginning(bool had_request)
{
    port.began_anew = true;
    port.lost_request = port.lost_request || had_request;
}

static bool is_set_configuration(const uint8_t *packet)
{
    return packet[0] == 0x00 && packet[1] == 0x09;
}

bool port_setup(const uint8_t packet[8], enum handshake *handshake, uint8_t *bytes, size_t *length)
{
    bool was_reading = is_reading();
    bool had_request = has_request();
    struct tmc_answer answer = traced(TRACED_SETUP, packet, 8, tmc_setup(&port.unit, packet, 8, bytes, TMC_CONTROL_BUFFER), bytes);

    *handshake = answer.number == TMC_NUMBER_DONE ? HANDSHAKE_ACK : HANDSHAKE_STALL;
    *length = answer.length;
    if (answer.number == TMC_NUMBER_DONE && drops_reply(packet, bytes, was_reading))
        port.generation++;
    if (answer.number == TMC_NUMBER_DONE && is_set_configuration(packet))
        note_beginning(had_request);
    if (answer.number == TMC_NUMBER_UNSOUND)
        start_over();
    note_what_it_tells(answer);
    return answer.number != TMC_NUMBER_NO_ROW;
}

/* What the three packet calls have in common. */
static enum handshake answered(struct tmc_answer answer, size_t *length)
{
    if (answer.number == TMC_NUMBER_UNSOUND)
        start_over();
    note_what_it_tells(answer);
    *length = answer.length;
    return handshake_of(answer);
}

enum handshake port_bulk_out(const uint8_t *packet, size_t length)
{
    size_t none;

    begins = port.unit.out_left == 0;
    return answered(traced(TRACED_BULK_OUT, packet, length, tmc_bulk_out(&port.unit, packet, length), NULL), &none);
}

enum handshake port_bulk_in(uint8_t *bytes, size_t *length)
{
    begins = port.unit.in_phase == TMC_PHASE_ASKED;
    return answered(traced(TRACED_BULK_IN, NULL, 0, tmc_bulk_in(&port.unit, bytes, controller_packet_size()), bytes), length);
}

enum handshake port_interrupt_in(uint8_t *bytes, size_t *length)
{
    return answered(traced(TRACED_INTERRUPT_IN, NULL, 0, tmc_interrupt_in(&port.unit, bytes, TMC_INTERRUPT_BUFFER), bytes), length);
}

void port_reset(void)
{
    note_beginning(has_request());
    if (traced(TRACED_BUS_RESET, NULL, 0, tmc_bus_reset(&port.unit), NULL).number == TMC_NUMBER_UNSOUND)
        power_on();
    port.generation++;
}

void port_suspend(void)
{
    if (traced(TRACED_SUSPEND, NULL, 0, tmc_suspend(&port.unit), NULL).number == TMC_NUMBER_UNSOUND)
        start_over();
}

/* A copy of the unit is polled in its place. A poll reads no message, and that of Interrupt-IN no reply: they are not copied. */
enum handshake port_next(enum endpoint endpoint, uint8_t *bytes, size_t *length)
{
    static struct tmc_unit copy;
    const size_t from = endpoint == BULK_IN ? offsetof(struct tmc_unit, reply) : offsetof(struct tmc_unit, packet);
    struct tmc_answer answer;

    memcpy((uint8_t *)&copy + from, (const uint8_t *)&port.unit + from, sizeof copy - from);
    answer = endpoint == BULK_IN ? tmc_bulk_in(&copy, bytes, controller_packet_size()) : tmc_interrupt_in(&copy, bytes, TMC_INTERRUPT_BUFFER);
    *length = answer.length;
    return handshake_of(answer);
}

bool port_is_stalled(enum endpoint endpoint)
{
    const bool halted[ENDPOINTS] = {port.unit.out_halted, port.unit.in_halted, port.unit.interrupt_halted};

    return !port.unit.configured || halted[endpoint];
}

bool port_message_waits(void)
{
    return port.unit.out_ready;
}

bool port_is_configured(void)
{
    return port.unit.configured;
}

/* The main loop's calls. */

void port_start(void)
{
    power_on();
}

/* After a call that may have changed what the controller is to do. */
static void unmask_and_tell(void)
{
    controller_pend();
    controller_unmask();
}

size_t port_take(uint8_t *message, size_t room, uint32_t *generation)
{
    struct tmc_answer answer;

    controller_mask();
    answer = traced(TRACED_TAKE, NULL, 0, tmc_take(&port.unit, message, room), message);
    if (answer.number == TMC_NUMBER_DONE)
        *generation = port.generation;
    unmask_and_tell();
    return answer.number == TMC_NUMBER_DONE ? answer.length : 0;
}

/* With the interrupt masked. What the library does not take stays for later: 16 where the rest of an earlier reply has to go first. */
static enum port_offer offer(uint32_t generation, const uint8_t *reply, size_t length)
{
    if (generation != port.generation)
        return PORT_STALE;
    if (port.unit.in_phase != TMC_PHASE_ASKED)
        return PORT_NOT_YET;
    if (traced(TRACED_OFFER, reply, length, tmc_offer(&port.unit, reply, length), NULL).number != TMC_NUMBER_DONE)
        return PORT_NOT_YET;
    return PORT_OFFERED;
}

enum port_offer port_offer(uint32_t generation, const uint8_t *reply, size_t length)
{
    enum port_offer offered;

    controller_mask();
    offered = offer(generation, reply, length);
    unmask_and_tell();
    return offered;
}

bool port_set_status(uint8_t bits, bool asks)
{
    struct tmc_answer answer;
    uint8_t status;

    controller_mask();
    status = (uint8_t)((bits & ~ASKS_SERVICE) | (asks ? ASKS_SERVICE : port.unit.status & ASKS_SERVICE));
    answer = traced(TRACED_SET_STATUS, &status, 1, tmc_set_status(&port.unit, status), NULL);
    unmask_and_tell();
    return answer.number == TMC_NUMBER_DONE;
}

void port_panel(void)
{
    controller_mask();
    traced(TRACED_PANEL, NULL, 0, tmc_panel(&port.unit), NULL);
    controller_unmask();
}

/* A note is read and struck out in one piece. One that is not there needs no mask: it is looked for again. */
static bool noted(bool *note)
{
    bool was;

    if (!*note)
        return false;
    controller_mask();
    was = *note;
    *note = false;
    controller_unmask();
    return was;
}

bool port_triggered(void)
{
    return noted(&port.triggered);
}

bool port_pulsed(void)
{
    return noted(&port.pulsed);
}

bool port_began_anew(bool *lost_request)
{
    *lost_request = noted(&port.lost_request);
    return noted(&port.began_anew);
}

struct tmc_unit *port_unit(void)
{
    return &port.unit;
}
