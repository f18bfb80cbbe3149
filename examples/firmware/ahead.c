/* What the controller does by itself must not be told to the unit before the host has it, and must not stay behind when the host gives it up.

   A packet to send. It is worked out on a copy of the unit (port_next), and loaded. The unit hears of it when it has gone: only then is the poll made
   for which it is the answer. So the unit is at each moment the one that a controller that asks would have. An abort finds the read open; a CHECK finds
   the packet owed; a count has the bytes that the host has.

   A setup packet can change what the next packet is. So what is loaded is taken out before each one, and worked out anew behind it. A packet that has gone
   meanwhile has come before it. The same is done at a reset and at suspend. Nothing else changes a packet that is loaded: not a packet of Bulk-OUT, and no
   call of the main loop.

   A packet that came. It is acknowledged, and the host counts it as sent. The unit may not let it in yet (5, a message is ready): then it stays where it is,
   and is given again behind the take. From a ready message on no more are acknowledged, so that it is one at most. The host may give it up meanwhile, and
   then it is thrown away (is_given_up), whatever the status of the request is: the unit knows nothing of it, and answers as if it had never been sent.

   The order. Between two runs of this routine several things may have happened. Packets that have gone are told first: a host that has read the end of
   an answer may have asked for the next one already. */
#include "ahead.h"

#include "fifo.h"
#include "port.h"
#include "standard.h"

static void tell_what_has_gone(void)
{
    uint8_t bytes[CONTROLLER_LARGEST];
    size_t length;

    if (fifo_has_gone(BULK_IN))
        port_bulk_in(bytes, &length);
    if (fifo_has_gone(INTERRUPT_IN))
        port_interrupt_in(bytes, &length);
}

/* Where a packet makes a message ready, the endpoint is held before there is room for another one. */
static void give_what_came(void)
{
    const uint8_t *packet;
    size_t length;

    while ((packet = fifo_received(&length)) != NULL && port_bulk_out(packet, length) != HANDSHAKE_NAK) {
        fifo_hold(port_message_waits());
        fifo_done();
    }
}

static void throw_away_what_came(void)
{
    size_t length;

    while (fifo_received(&length) != NULL)
        fifo_done();
}

static void take_out(void)
{
    fifo_unload(BULK_IN);
    fifo_unload(INTERRUPT_IN);
    tell_what_has_gone();
}

static void load(enum endpoint endpoint)
{
    uint8_t bytes[CONTROLLER_LARGEST];
    size_t length;

    if (!fifo_is_loaded(endpoint) && port_next(endpoint, bytes, &length) == HANDSHAKE_ACK)
        fifo_load(endpoint, bytes, length);
}

static void make_ready(void)
{
    enum endpoint endpoint;

    for (endpoint = BULK_OUT; endpoint < ENDPOINTS; endpoint++)
        fifo_stall(endpoint, port_is_stalled(endpoint));
    fifo_hold(port_message_waits());
    load(BULK_IN);
    load(INTERRUPT_IN);
}

#define REQUEST 2u /* the MsgID of REQUEST_DEV_DEP_MSG_IN */

/* Whether a packet that waits to be let in is one that the host does not want any more, once this setup packet is answered. An abort of Bulk-IN gives up
   a REQUEST: one with its tag, and where no read is open (80) any, since it can mean no other. A clear and SET_FEATURE need no row: they halt Bulk-OUT, and
   the unit refuses the packet (4) when it is given again. */
static bool is_given_up(const uint8_t *packet, size_t length, const uint8_t *setup, const struct standard_answer *answer)
{
    unsigned request = (unsigned)setup[0] << 8 | setup[1];

    if (answer->handshake != HANDSHAKE_ACK)
        return false;
    switch (request) {
    case 0x0009: /* SET_CONFIGURATION */
    case 0x010B: /* SET_INTERFACE */
    case 0xA201: /* INITIATE_ABORT_BULK_OUT */
        return true;
    case 0x0201: /* CLEAR_FEATURE */
        return setup[4] == 0x01;
    case 0xA203: /* INITIATE_ABORT_BULK_IN */
        return length >= 2 && packet[0] == REQUEST && (packet[1] == setup[2] || answer->bytes[0] == TMC_STATUS_FAILED);
    default:
        return false;
    }
}

static void on_setup(void)
{
    size_t length;
    const uint8_t *setup = controller_packet(&length);
    const uint8_t *packet;
    struct standard_answer answer;

    take_out();
    give_what_came();
    answer = standard_answers(setup);
    packet = fifo_received(&length);
    if (packet != NULL && is_given_up(packet, length, setup, &answer))
        throw_away_what_came();
    controller_answer(answer.handshake, answer.bytes, answer.length);
}

void ahead_interrupt(enum controller_event event)
{
    switch (event) {
    case EVENT_SETUP:
        on_setup();
        break;
    case EVENT_RESET:
        take_out();
        throw_away_what_came();
        port_reset();
        break;
    case EVENT_SUSPEND:
        take_out();
        port_suspend();
        break;
    default:
        tell_what_has_gone();
        break;
    }
    give_what_came();
    make_ready();
}
