/* Each function here reaches a unit's state by calls that are answered 0, and gives the call to be measured. */
#include "cases.h"

#include <stdio.h>
#include <stdlib.h>

#define HEADER 12
#define LONGEST 1024
#define OUT_ENDPOINT 0x01
#define IN_ENDPOINT 0x82
#define INTERRUPT_ENDPOINT 0x83

/* Status bytes, with bit 6 off and on. */
#define STATUS 0x11
#define STATUS_ASKING 0x51

/* bmRequestType. */
#define TO_DEVICE 0x00
#define TO_ENDPOINT 0x02
#define FROM_DEVICE 0x80
#define FROM_ENDPOINT 0x82
#define CLASS_INTERFACE 0xA1
#define CLASS_ENDPOINT 0xA2

/* The data bytes of a full packet with a header. */
static size_t first_data(const struct pair *pair)
{
    return pair->packet_size - HEADER;
}

/* A packet full of data. */
static struct call full_packet(const struct pair *pair)
{
    return continuing(pair->packet_size);
}

static struct call next_poll(const struct pair *pair)
{
    return poll(pair->packet_size);
}

static void do_call(struct pair *pair, struct call call)
{
    struct made made = pair_call(pair, &call);

    if (made.number == TMC_NUMBER_DONE)
        return;
    fprintf(stderr, "cases: on the way to %s a call was answered %u\n", pair->name, made.number);
    exit(1);
}

/* Setup packets. */

static struct call set_configuration(void)
{
    return setup(TO_DEVICE, 9, 1, 0, 0);
}

static struct call initiate_clear(void)
{
    return setup(CLASS_INTERFACE, 5, 0, 0, 1);
}

static struct call ren_on(void)
{
    return setup(CLASS_INTERFACE, 160, 1, 0, 1);
}

static struct call read_status(void)
{
    return setup(CLASS_INTERFACE, 128, 2, 0, 3);
}

static struct call halt(uint16_t endpoint)
{
    return setup(TO_ENDPOINT, 3, 0, endpoint, 0);
}

/* States on the way. */

static void configure(struct pair *pair)
{
    do_call(pair, set_configuration());
}

static void begin_longest_message(struct pair *pair)
{
    configure(pair);
    do_call(pair, message(1, LONGEST, true, first_data(pair)));
}

/* A message in one packet. */
static void send_short_message(struct pair *pair, size_t length)
{
    configure(pair);
    do_call(pair, message(1, length, true, length));
}

static void send_longest_message(struct pair *pair)
{
    size_t left = LONGEST - first_data(pair);

    begin_longest_message(pair);
    for (; left > pair->packet_size; left -= pair->packet_size)
        do_call(pair, full_packet(pair));
    do_call(pair, continuing(left));
}

static void ask_for_reply(struct pair *pair, size_t reply)
{
    configure(pair);
    do_call(pair, offer(reply));
    do_call(pair, request(1, LONGEST));
}

static void begin_reply(struct pair *pair, size_t reply)
{
    ask_for_reply(pair, reply);
    do_call(pair, next_poll(pair));
}

static void ask_for_service(struct pair *pair)
{
    configure(pair);
    do_call(pair, set_status(STATUS_ASKING));
}

static void go_remote(struct pair *pair)
{
    configure(pair);
    do_call(pair, ren_on());
    do_call(pair, message(1, 6, true, 6));
}

/* Bulk-OUT. */

static struct call out_first(struct pair *pair)
{
    configure(pair);
    return message(1, LONGEST, true, first_data(pair));
}

static struct call out_next(struct pair *pair)
{
    begin_longest_message(pair);
    return full_packet(pair);
}

static struct call out_last(struct pair *pair)
{
    configure(pair);
    do_call(pair, message(1, first_data(pair) + pair->packet_size, true, first_data(pair)));
    return full_packet(pair);
}

static struct call out_last_short(struct pair *pair)
{
    configure(pair);
    do_call(pair, message(1, first_data(pair) + 10, true, first_data(pair)));
    return continuing(10);
}

static struct call out_whole(struct pair *pair)
{
    configure(pair);
    return message(1, first_data(pair), true, first_data(pair));
}

static struct call out_short(struct pair *pair)
{
    configure(pair);
    return message(1, 6, true, 6);
}

static struct call out_request(struct pair *pair)
{
    configure(pair);
    return request(1, LONGEST);
}

static struct call out_trigger(struct pair *pair)
{
    configure(pair);
    return trigger(1);
}

static struct call out_bad_tag(struct pair *pair)
{
    struct call call = out_first(pair);

    call.bytes[2] = 0xFF;
    return call;
}

static struct call out_halted(struct pair *pair)
{
    configure(pair);
    do_call(pair, halt(OUT_ENDPOINT));
    return message(1, LONGEST, true, first_data(pair));
}

static struct call out_wait(struct pair *pair)
{
    send_short_message(pair, 6);
    return message(2, LONGEST, true, first_data(pair));
}

/* Bulk-IN. */

static struct call in_first(struct pair *pair)
{
    ask_for_reply(pair, LONGEST);
    return next_poll(pair);
}

static struct call in_next(struct pair *pair)
{
    begin_reply(pair, LONGEST);
    return next_poll(pair);
}

static struct call in_last(struct pair *pair)
{
    begin_reply(pair, 2 * first_data(pair));
    return next_poll(pair);
}

static struct call in_empty(struct pair *pair)
{
    begin_reply(pair, first_data(pair));
    return next_poll(pair);
}

static struct call in_whole(struct pair *pair)
{
    ask_for_reply(pair, 20);
    return next_poll(pair);
}

static struct call in_term_char(struct pair *pair)
{
    configure(pair);
    do_call(pair, offer_with_line_end(LONGEST, first_data(pair) - 1));
    do_call(pair, request_to_line_end(1, LONGEST));
    return next_poll(pair);
}

static struct call in_no_term_char(struct pair *pair)
{
    configure(pair);
    do_call(pair, offer(LONGEST));
    do_call(pair, request_to_line_end(1, LONGEST));
    return next_poll(pair);
}

static struct call in_wait(struct pair *pair)
{
    configure(pair);
    return next_poll(pair);
}

static struct call in_halted(struct pair *pair)
{
    configure(pair);
    do_call(pair, halt(IN_ENDPOINT));
    return next_poll(pair);
}

/* Interrupt-IN. */

static struct call interrupt_service(struct pair *pair)
{
    ask_for_service(pair);
    return interrupt_poll();
}

static struct call interrupt_kept(struct pair *pair)
{
    ask_for_service(pair);
    do_call(pair, set_status(STATUS_ASKING));
    return interrupt_poll();
}

static struct call interrupt_wait(struct pair *pair)
{
    configure(pair);
    return interrupt_poll();
}

static struct call interrupt_halted(struct pair *pair)
{
    ask_for_service(pair);
    do_call(pair, halt(INTERRUPT_ENDPOINT));
    return interrupt_poll();
}

/* Setup. */

static struct call get_status(struct pair *pair)
{
    configure(pair);
    return setup(FROM_ENDPOINT, 0, 0, OUT_ENDPOINT, 2);
}

static struct call get_capabilities(struct pair *pair)
{
    configure(pair);
    return setup(CLASS_INTERFACE, 7, 0, 0, 24);
}

static struct call abort_out(struct pair *pair)
{
    begin_longest_message(pair);
    return setup(CLASS_ENDPOINT, 1, 1, OUT_ENDPOINT, 2);
}

static struct call check_abort_out(struct pair *pair)
{
    begin_longest_message(pair);
    do_call(pair, setup(CLASS_ENDPOINT, 1, 1, OUT_ENDPOINT, 2));
    return setup(CLASS_ENDPOINT, 2, 0, OUT_ENDPOINT, 8);
}

static struct call abort_in(struct pair *pair)
{
    begin_reply(pair, LONGEST);
    return setup(CLASS_ENDPOINT, 3, 1, IN_ENDPOINT, 2);
}

static struct call clear(struct pair *pair)
{
    begin_reply(pair, LONGEST);
    return initiate_clear();
}

static struct call check_clear(struct pair *pair)
{
    configure(pair);
    do_call(pair, initiate_clear());
    return setup(CLASS_INTERFACE, 6, 0, 0, 2);
}

static struct call clear_halt(struct pair *pair)
{
    configure(pair);
    do_call(pair, halt(OUT_ENDPOINT));
    return setup(TO_ENDPOINT, 1, 0, OUT_ENDPOINT, 0);
}

static struct call read_status_byte(struct pair *pair)
{
    configure(pair);
    do_call(pair, set_status(STATUS));
    return read_status();
}

static struct call read_status_busy(struct pair *pair)
{
    ask_for_service(pair);
    return read_status();
}

static struct call local_lockout(struct pair *pair)
{
    configure(pair);
    do_call(pair, ren_on());
    return setup(CLASS_INTERFACE, 162, 0, 0, 1);
}

static struct call configuration(struct pair *pair)
{
    (void)pair;
    return set_configuration();
}

static struct call no_row(struct pair *pair)
{
    configure(pair);
    return setup(FROM_DEVICE, 6, 0x0100, 0, 18);
}

/* The instrument, and the bus. */

static struct call take_short(struct pair *pair)
{
    send_short_message(pair, 9);
    return take(LONGEST);
}

static struct call take_longest(struct pair *pair)
{
    send_longest_message(pair);
    return take(LONGEST);
}

static struct call take_nothing(struct pair *pair)
{
    configure(pair);
    return take(LONGEST);
}

static struct call offer_short(struct pair *pair)
{
    configure(pair);
    return offer(20);
}

static struct call offer_longest(struct pair *pair)
{
    configure(pair);
    return offer(LONGEST);
}

static struct call status_byte(struct pair *pair)
{
    configure(pair);
    return set_status(STATUS);
}

static struct call status_asking(struct pair *pair)
{
    configure(pair);
    return set_status(STATUS_ASKING);
}

static struct call panel(struct pair *pair)
{
    go_remote(pair);
    return bare(PANEL);
}

static struct call suspend(struct pair *pair)
{
    go_remote(pair);
    return bare(SUSPEND);
}

static struct call bus_reset(struct pair *pair)
{
    go_remote(pair);
    return bare(BUS_RESET);
}

static struct call powered_on(struct pair *pair)
{
    return power_on(pair->packet_size);
}

#define OUT "Bulk-OUT packet"
#define IN "Bulk-IN poll"
#define INTERRUPT "Interrupt-IN poll"
#define CONTROL "Setup packet"
#define OTHERS "Instrument and bus"

const struct measured_case cases[] = {
    {OUT, "out-first", "header with data, first packet of a longer transfer", TMC_NUMBER_DONE, true, out_first},
    {OUT, "out-next", "full packet, continuing", TMC_NUMBER_DONE, true, out_next},
    {OUT, "out-last", "full packet, the last, with EOM", TMC_NUMBER_DONE, true, out_last},
    {OUT, "out-whole", "full packet, a whole message", TMC_NUMBER_DONE, true, out_whole},
    {OUT, "out-last-short", "the last, with EOM: 10 bytes, 2 of alignment", TMC_NUMBER_DONE, false, out_last_short},
    {OUT, "out-short", "a whole message: header, 6 bytes, 2 of alignment", TMC_NUMBER_DONE, false, out_short},
    {OUT, "out-request", "REQUEST_DEV_DEP_MSG_IN", TMC_NUMBER_DONE, false, out_request},
    {OUT, "out-trigger", "TRIGGER", TMC_NUMBER_DONE, false, out_trigger},
    {OUT, "out-bad-tag", "full packet, refused: bad tag", TMC_NUMBER_BAD_TAG, true, out_bad_tag},
    {OUT, "out-halted", "full packet, refused: halted", TMC_NUMBER_HALTED, true, out_halted},
    {OUT, "out-wait", "full packet, to wait", TMC_NUMBER_WAIT, true, out_wait},

    {IN, "in-first", "first packet of a longer reply", TMC_NUMBER_DONE, true, in_first},
    {IN, "in-next", "next packet", TMC_NUMBER_DONE, true, in_next},
    {IN, "in-last", "last packet, 12 bytes short of full", TMC_NUMBER_DONE, true, in_last},
    {IN, "in-term-char", "first packet, up to a TermChar that ends it", TMC_NUMBER_DONE, true, in_term_char},
    {IN, "in-no-term-char", "first packet, a TermChar looked for in 1,024 bytes", TMC_NUMBER_DONE, true, in_no_term_char},
    {IN, "in-whole", "a whole reply of 20 bytes", TMC_NUMBER_DONE, false, in_whole},
    {IN, "in-empty", "empty packet that closes", TMC_NUMBER_DONE, false, in_empty},
    {IN, "in-wait", "nothing to send", TMC_NUMBER_WAIT, false, in_wait},
    {IN, "in-halted", "halted", TMC_NUMBER_HALTED, false, in_halted},

    {INTERRUPT, "interrupt-service", "a service request", TMC_NUMBER_DONE, false, interrupt_service},
    {INTERRUPT, "interrupt-kept", "a service request, and a kept one is queued", TMC_NUMBER_DONE, false, interrupt_kept},
    {INTERRUPT, "interrupt-wait", "no packet waits", TMC_NUMBER_WAIT, false, interrupt_wait},
    {INTERRUPT, "interrupt-halted", "halted", TMC_NUMBER_HALTED, false, interrupt_halted},

    {CONTROL, "get-status", "GET_STATUS of an endpoint", TMC_NUMBER_DONE, false, get_status},
    {CONTROL, "get-capabilities", "GET_CAPABILITIES", TMC_NUMBER_DONE, false, get_capabilities},
    {CONTROL, "abort-out", "INITIATE_ABORT_BULK_OUT", TMC_NUMBER_DONE, false, abort_out},
    {CONTROL, "check-abort-out", "CHECK_ABORT_BULK_OUT_STATUS", TMC_NUMBER_DONE, false, check_abort_out},
    {CONTROL, "abort-in", "INITIATE_ABORT_BULK_IN", TMC_NUMBER_DONE, false, abort_in},
    {CONTROL, "clear", "INITIATE_CLEAR", TMC_NUMBER_DONE, false, clear},
    {CONTROL, "check-clear", "CHECK_CLEAR_STATUS", TMC_NUMBER_DONE, false, check_clear},
    {CONTROL, "clear-halt", "CLEAR_FEATURE of a halt", TMC_NUMBER_DONE, false, clear_halt},
    {CONTROL, "read-status-byte", "READ_STATUS_BYTE", TMC_NUMBER_DONE, false, read_status_byte},
    {CONTROL, "read-status-busy", "READ_STATUS_BYTE, a packet waits", TMC_NUMBER_DONE, false, read_status_busy},
    {CONTROL, "local-lockout", "LOCAL_LOCKOUT", TMC_NUMBER_DONE, false, local_lockout},
    {CONTROL, "set-configuration", "SET_CONFIGURATION", TMC_NUMBER_DONE, false, configuration},
    {CONTROL, "no-row", "a packet with no row", TMC_NUMBER_NO_ROW, false, no_row},

    {OTHERS, "take-9", "take, 9 bytes", TMC_NUMBER_DONE, false, take_short},
    {OTHERS, "take-1024", "take, 1,024 bytes", TMC_NUMBER_DONE, false, take_longest},
    {OTHERS, "take-nothing", "take, nothing there", TMC_NUMBER_NOT_NOW, false, take_nothing},
    {OTHERS, "offer-20", "offer, 20 bytes", TMC_NUMBER_DONE, false, offer_short},
    {OTHERS, "offer-1024", "offer, 1,024 bytes", TMC_NUMBER_DONE, false, offer_longest},
    {OTHERS, "set-status", "set status", TMC_NUMBER_DONE, false, status_byte},
    {OTHERS, "set-status-asking", "set status, bit 6 on", TMC_NUMBER_DONE, false, status_asking},
    {OTHERS, "panel", "panel", TMC_NUMBER_DONE, false, panel},
    {OTHERS, "suspend", "suspend", TMC_NUMBER_DONE, false, suspend},
    {OTHERS, "bus-reset", "bus reset", TMC_NUMBER_DONE, false, bus_reset},
    {OTHERS, "power-on", "power-on", TMC_NUMBER_DONE, false, powered_on},
};

const size_t case_count = sizeof cases / sizeof *cases;
