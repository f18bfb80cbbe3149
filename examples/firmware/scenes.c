/* The scenes that are played: a host's calls, and between them turns of the main loop. */
#include "controller.h"
#include "firmware.h"
#include "host.h"
#include "port.h"

#include <stdio.h>
#include <string.h>

static const struct setup get_device = {"GET_DESCRIPTOR of the device", 0x80, 6, 0x0100, 0, 18};
static const struct setup set_address = {"SET_ADDRESS 5", 0x00, 5, 5, 0, 0};
static const struct setup get_configuration = {"GET_DESCRIPTOR of the configuration", 0x80, 6, 0x0200, 0, 39};
static const struct setup set_configuration = {"SET_CONFIGURATION 1", 0x00, 9, 1, 0, 0};
static const struct setup set_interface = {"SET_INTERFACE 0", 0x01, 11, 0, 0, 0};
static const struct setup get_qualifier = {"GET_DESCRIPTOR of the other speed's device, of which there is none", 0x80, 6, 0x0600, 0, 10};
static const struct setup get_languages = {"GET_DESCRIPTOR of the languages", 0x80, 6, 0x0300, 0, 255};
static const struct setup get_serial = {"GET_DESCRIPTOR of the serial number", 0x80, 6, 0x0303, 0x0409, 255};
static const struct setup configuration_now = {"GET_CONFIGURATION", 0x80, 8, 0, 0, 1};
static const struct setup setting_now = {"GET_INTERFACE", 0x81, 10, 0, 0, 1};
static const struct setup device_status = {"GET_STATUS of the device", 0x80, 0, 0, 0, 2};
static const struct setup interface_status = {"GET_STATUS of the interface", 0x81, 0, 0, 0, 2};
static const struct setup control_status = {"GET_STATUS of endpoint 0", 0x82, 0, 0, 0, 2};
static const struct setup get_capabilities = {"GET_CAPABILITIES", 0xA1, 7, 0, 0, 24};
static const struct setup ren_on = {"REN_CONTROL 1", 0xA1, 160, 1, 0, 1};
static const struct setup pulse = {"INDICATOR_PULSE", 0xA1, 64, 0, 0, 1};
static const struct setup out_halted = {"GET_STATUS of Bulk-OUT", 0x82, 0, 0, 0x01, 2};
static const struct setup in_halted = {"GET_STATUS of Bulk-IN", 0x82, 0, 0, 0x82, 2};
static const struct setup halt_out = {"SET_FEATURE, a halt of Bulk-OUT", 0x02, 3, 0, 0x01, 0};
static const struct setup halt_in = {"SET_FEATURE, a halt of Bulk-IN", 0x02, 3, 0, 0x82, 0};
static const struct setup clear_out = {"CLEAR_FEATURE, the halt of Bulk-OUT", 0x02, 1, 0, 0x01, 0};
static const struct setup clear_in = {"CLEAR_FEATURE, the halt of Bulk-IN", 0x02, 1, 0, 0x82, 0};
static const struct setup initiate_clear = {"INITIATE_CLEAR", 0xA1, 5, 0, 0, 1};
static const struct setup check_clear = {"CHECK_CLEAR_STATUS", 0xA1, 6, 0, 0, 2};
static const struct setup check_abort_in = {"CHECK_ABORT_BULK_IN_STATUS", 0xA2, 4, 0, 0x82, 8};

static struct setup abort_in(uint8_t tag)
{
    struct setup setup = {"INITIATE_ABORT_BULK_IN", 0xA2, 3, tag, 0x82, 2};
    return setup;
}

static struct setup read_status(uint8_t tag)
{
    struct setup setup = {"READ_STATUS_BYTE", 0xA1, 128, tag, 0, 3};
    return setup;
}

static int32_t room = 19000;
static uint32_t clock_now;

int32_t firmware_measures(void)
{
    return room;
}

uint32_t firmware_milliseconds(void)
{
    return clock_now;
}

/* The scenes say what the room does. */
void firmware_heats(int32_t setpoint)
{
    (void)setpoint;
}

static void time_passes(uint32_t milliseconds)
{
    clock_now += milliseconds;
    printf("  %-11s goes on by %lu milliseconds\n", "clock", (unsigned long)milliseconds);
}

static void room_is(int32_t thousandths)
{
    room = thousandths;
    printf("  %-11s is at %ld thousandths of a degree\n", "room", (long)room);
}

static void scene(const char *title)
{
    printf("\n%s\n", title);
}

static void turns(unsigned count)
{
    for (; count > 0; count--)
        firmware_turn();
    if (!host_heard_thermostat())
        firmware_says("finds nothing to do");
    host_heard_thermostat();
}

/* A question that is answered at once, and read. */
static void ask(uint8_t tag, const char *question)
{
    host_sends(tag, 1, question);
    turns(2);
    host_asks((uint8_t)(tag + 1), 1024);
    turns(1);
    host_reads();
}

static void enumeration(void)
{
    printf("Enumeration, and a program opens the device as pyvisa-py does\n");
    host_resets();
    host_setup(get_device);
    host_setup(set_address);
    host_setup(get_configuration);
    host_setup(get_qualifier);
    host_setup(get_languages);
    host_setup(get_serial);
    host_setup(configuration_now);
    host_setup(set_configuration);
    host_setup(set_interface);
    host_resets();
    host_setup(set_address);
    host_setup(set_configuration);
    host_setup(get_capabilities);
    host_setup(ren_on);
}

static void standard(void)
{
    scene("The requests that the port leaves to the device; SET_INTERFACE ends the halts");
    host_setup(configuration_now);
    host_setup(setting_now);
    host_setup(device_status);
    host_setup(interface_status);
    host_setup(control_status);
    host_setup(halt_out);
    host_setup(halt_in);
    host_setup(out_halted);
    host_setup(in_halted);
    host_setup(set_interface);
    host_setup(out_halted);
    host_setup(in_halted);
}

static void identity(void)
{
    scene("*IDN?, with an answer that fills two packets to the last byte: an empty one closes the transfer");
    host_sends(1, 1, "*IDN?\n");
    turns(1);
    host_asks(2, 1024);
    host_polls();
    turns(1);
    host_reads();
}

static void setpoint(void)
{
    scene("SETP 18 and SETP 27.5, each whole");
    host_sends(3, 1, "SETP 18\n");
    turns(1);
    host_sends(4, 1, "SETP 27.5\n");
    host_sends(5, 1, "SETP?\n");
    turns(1);
    ask(5, "SETP?\n");
}

static void setpoint_in_halves(void)
{
    scene("SETP 18, and then SETP 27.5 in two transfers: the half is not acted on");
    host_sends(7, 1, "SETP 18\n");
    turns(1);
    host_sends(8, 0, "SETP 27");
    turns(2);
    host_sends(9, 1, ".5\n");
    turns(1);
    ask(10, "SETP?\n");
}

static void old_bytes(void)
{
    scene("A bench of another maker leaves old bytes behind a command, up to a multiple of four: they are no part of it");
    host_sends_over(12, "SETP 19.5\n", "75\n");
    turns(1);
    ask(13, "SETP?\n");
    host_sends_over(15, "SETP 27.5\n", "19.");
    turns(1);
}

static void fault(void)
{
    scene("A half, a damaged packet, and the host's way back: the half is not joined to what comes next");
    host_sends(12, 0, "SETP 35");
    host_sends_damaged(13, ".5\n");
    host_setup(out_halted);
    host_sends(13, 1, ".5\n");
    host_setup(clear_out);
    host_setup(out_halted);
    host_sends(13, 1, ".5\n");
    turns(1);
    host_polls_interrupt();
    ask(14, "SETP?\n");
}

static void tellings(void)
{
    scene("A trigger, and a pulse of the light");
    host_triggers(16);
    turns(1);
    host_setup(pulse);
    turns(1);
}

static void masked(void)
{
    scene("A packet that comes while the main loop is in the port waits until it is out again");
    host_sends_while_masked(17, "SETP 21.25\n");
    turns(1);
    host_sees_answer();
    turns(1);
}

/* Without the generation (port.c) the answer would be handed over where it is thrown away: the second read would fetch it, after an abort
   that had dropped it. */
static void late_after_abort(void)
{
    scene("The host aborts its read while the thermostat is at work: the late answer is thrown away, and the next question gets its own");
    host_sends(18, 1, "*IDN?\n");
    turns(1);
    host_asks(19, 1024);
    host_polls();
    host_setup(abort_in(19));
    host_polls();
    host_setup(check_abort_in);
    host_asks(20, 1024);
    turns(1);
    host_polls();
    host_setup(abort_in(20));
    host_polls();
    host_setup(check_abort_in);
    ask(21, "SETP?\n");
}

/* An abort with the wrong tag, which one driver sends, leaves the read open, and the next request is out of turn (13). With neither guard
   of port.c the identity would be offered behind the clear, and SETP? would be answered with it. */
static void late_after_clear(void)
{
    scene("A read times out, the abort has a wrong tag, the next request halts Bulk-OUT: a clear helps, the late answer is dropped");
    host_sends(23, 1, "*IDN?\n");
    turns(1);
    host_asks(24, 1024);
    host_polls();
    host_setup(abort_in(25));
    host_asks(25, 1024);
    host_setup(initiate_clear);
    host_setup(check_clear);
    host_polls();
    host_setup(check_clear);
    host_setup(clear_out);
    turns(1);
    ask(26, "SETP?\n");
}

static void late_after_features(void)
{
    scene("The same, and the host clears the halts of both bulk endpoints instead");
    host_sends(28, 1, "*IDN?\n");
    turns(1);
    host_asks(29, 1024);
    host_asks(30, 1024);
    host_setup(clear_out);
    host_setup(clear_in);
    turns(1);
    ask(31, "SETP?\n");
}

/* Without the second guard of port.c the identity would lie in the reply store by then, and be read. */
static void unread(void)
{
    scene("The host asks, does not read, and asks again: it gets the answer to its last question");
    host_sends(33, 1, "*IDN?\n");
    turns(3);
    ask(34, "SETP?\n");
}

static void late_measurement(void)
{
    scene("TEMP? takes two seconds; the host gives up after one, and asks for the setpoint: the temperature is not its answer");
    host_sends(36, 1, "TEMP?\n");
    turns(1);
    host_asks(37, 1024);
    time_passes(1000);
    turns(1);
    host_polls();
    host_setup(abort_in(37));
    host_polls();
    host_setup(check_abort_in);
    time_passes(1000);
    turns(1);
    ask(38, "SETP?\n");
    host_sends(40, 1, "TEMP?\n");
    turns(1);
    host_asks(41, 1024);
    time_passes(2000);
    turns(1);
    host_reads();
}

/* The next three are what a controller that works ahead has to be held to (ahead.c). */

static void clear_with_packet_loaded(void)
{
    scene("A clear while a read is open: CHECK says PENDING until the empty packet has been fetched, and the next read begins with its own header");
    host_asks(42, 1024);
    host_setup(initiate_clear);
    host_setup(check_clear);
    host_polls();
    host_setup(check_clear);
    host_setup(clear_out);
    ask(43, "SETP?\n");
}

static void abort_with_packet_loaded(void)
{
    scene("An abort of a read whose answer, one short packet, is there and not fetched: the answer is dropped, and the next read has its own");
    host_sends(45, 1, "SETP?\n");
    turns(2);
    host_asks(46, 1024);
    turns(1);
    host_setup(abort_in(46));
    host_polls();
    host_setup(check_abort_in);
    ask(47, "SETP?\n");
}

static void abort_of_request_that_waits(void)
{
    scene("A request comes while a message is ready, and is aborted before it is let in: it opens no read later, and the next request is in turn");
    host_sends_and_asks_while_masked(49, "SETP?\n", 1024);
    turns(1);
    host_sees_answers();
    host_setup(abort_in(50));
    turns(2);
    host_polls();
    host_asks(51, 1024);
    turns(1);
    host_reads();
}

static void service(void)
{
    scene("A message that cannot be carried out: the bench is told on Interrupt-IN, and the status byte that it asks for comes there too");
    host_polls_interrupt();
    host_sends(36, 1, "SETP warm\n");
    turns(1);
    host_polls_interrupt();
    host_setup(read_status(2));
    host_polls_interrupt();
    host_sends(37, 1, "SETP 23\n");
    turns(1);
    host_setup(read_status(3));
    host_polls_interrupt();
    host_polls_interrupt();
}

static void service_of_room(void)
{
    scene("The room comes to its setpoint, and leaves it: the bench is told of the first, and need not have asked");
    room_is(21500);
    turns(1);
    host_polls_interrupt();
    room_is(22950);
    turns(1);
    host_polls_interrupt();
    room_is(23400);
    turns(1);
    host_polls_interrupt();
    host_setup(read_status(4));
    host_polls_interrupt();
}

/* SETP? can be carried out, and puts the error out in the status byte. Without the third guard of port.c it would take the kept request
   back, and the second packet would not come. */
static void never_polled(void)
{
    scene("A host that never polls Interrupt-IN: all else goes on, one request waits and one is kept; a program that polls later finds both");
    host_sends(38, 1, "SETP warm\n");
    turns(1);
    host_setup(read_status(5));
    room_is(23050);
    turns(1);
    host_sends(39, 1, "SETP cold\n");
    turns(1);
    ask(40, "SETP?\n");
    host_setup(read_status(6));
    host_setup(initiate_clear);
    host_setup(check_clear);
    host_setup(clear_out);
    host_polls_interrupt();
    host_setup(read_status(7));
    host_polls_interrupt();
    host_polls_interrupt();
}

static void bus(void)
{
    scene("Suspend, over which a service request waits, and a reset while the thermostat is at work, after which the status byte is set anew");
    host_sends(42, 1, "SETP warm\n");
    turns(1);
    host_suspends();
    host_polls_interrupt();
    host_sends(43, 1, "*IDN?\n");
    turns(1);
    host_resets();
    turns(1);
    host_setup(set_configuration);
    ask(1, "SETP?\n");
    host_setup(read_status(2));
    host_polls_interrupt();
}

static void request_over_reset(void)
{
    scene("A service request that nobody fetched, and a reset: the host that comes then is told of the room, and not of what another one sent");
    host_sends(3, 1, "SETP warm\n");
    turns(1);
    host_resets();
    turns(1);
    host_setup(set_configuration);
    turns(1);
    host_polls_interrupt();
    host_polls_interrupt();
}

static void stray_write(void)
{
    scene("A stray write meets the unit: the port answers 1, and the firmware starts over");
    port_unit()->in_unsent = 0xFFFF;
    host_sends(3, 1, "SETP?\n");
    if (wire_reattached())
        printf("  %-11s left the bus and is back\n", "device");
    host_resets();
    host_setup(set_configuration);
    ask(1, "SETP?\n");
}

int main(int count, char **words)
{
    enum controller_kind kind = count == 2 && strcmp(words[1], "ahead") == 0 ? CONTROLLER_WORKS_AHEAD : CONTROLLER_ASKS;

    if (count > 2 || (count == 2 && kind == CONTROLLER_ASKS)) {
        fprintf(stderr, "usage: firmware [ahead]    plays the scenes, with a controller that asks or, with the word, one that works ahead\n");
        return 2;
    }
    firmware_start(kind, TMC_FULL_SPEED);
    enumeration();
    standard();
    identity();
    setpoint();
    setpoint_in_halves();
    old_bytes();
    fault();
    tellings();
    masked();
    late_after_abort();
    late_after_clear();
    late_after_features();
    unread();
    late_measurement();
    clear_with_packet_loaded();
    abort_with_packet_loaded();
    abort_of_request_that_waits();
    service();
    service_of_room();
    never_polled();
    bus();
    request_over_reset();
    stray_write();
    return 0;
}
