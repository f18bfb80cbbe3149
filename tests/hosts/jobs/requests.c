/* The driver's ioctls on a device that is well: what each is answered, and that a whole command arrives afterwards. */
#include "raw.h"

#include <string.h>

static void capabilities(int device)
{
    uint8_t caps = 0;

    scene("What the driver says that the device can do");
    if (ioctl(device, USBTMC488_IOCTL_GET_CAPS, &caps) != 0)
        wrong("the driver does not tell: %s", outcome(-1));
    say("trigger: %s", caps & USBTMC488_CAPABILITY_TRIGGER ? "yes" : "no");
    say("REN, go to local, lockout: %s", caps & USBTMC488_CAPABILITY_SIMPLE ? "yes" : "no");
    say("a 488.2 interface: %s", caps & USBTMC488_CAPABILITY_488_DOT_2 ? "yes" : "no");
    say("DT1: %s", caps & USBTMC488_CAPABILITY_DT1 ? "yes" : "no");
    say("RL1: %s", caps & USBTMC488_CAPABILITY_RL1 ? "yes" : "no");
    say("SR1: %s", caps & USBTMC488_CAPABILITY_SR1 ? "yes" : "no");
    say("SCPI: %s", caps & USBTMC488_CAPABILITY_FULL_SCPI ? "yes" : "no");
}

static void clear_when_idle(int device)
{
    scene("A clear of a device that is well");
    call(device, "clear", USBTMC_IOCTL_CLEAR, NULL);
    try_whole_command(device);
}

/* The question is taken by then, and its answer is dropped with the clear. */
static void clear_after_question(int device)
{
    scene("A clear between a question and the read of its answer");
    send_text(device, "*IDN?\n");
    call(device, "clear", USBTMC_IOCTL_CLEAR, NULL);
    try_whole_command(device);
}

static void clear_in_an_answer(int device)
{
    scene("A clear in the middle of an answer");
    send_text(device, "*IDN?\n");
    read_some(device, 30);
    call(device, "clear", USBTMC_IOCTL_CLEAR, NULL);
    try_whole_command(device);
}

static void abort_when_idle(int device)
{
    scene("Aborts where nothing is open");
    call(device, "abort of Bulk-OUT", USBTMC_IOCTL_ABORT_BULK_OUT, NULL);
    call(device, "abort of Bulk-IN", USBTMC_IOCTL_ABORT_BULK_IN, NULL);
    try_whole_command(device);
}

/* The driver aborts with the tag that is next after its last read, so that a REQUEST with that tag is aborted rightly. */
static void abort_in(int device)
{
    uint8_t header[12], tag;

    scene("An abort of Bulk-IN that has the right tag");
    tag = newest_tag(device);
    tag = tag == 255 ? 1 : (uint8_t)(tag + 1);
    send_text(device, "TEMP?\n");
    put_header(header, REQUEST, tag, STORE, false);
    send_raw(device, "a REQUEST", header, sizeof header);
    call(device, "abort of Bulk-IN", USBTMC_IOCTL_ABORT_BULK_IN, NULL);
    try_whole_command(device);
}

/* The driver aborts with the tag of its last write or read. */
static void abort_out(int device)
{
    uint8_t transfer[STORE];
    unsigned packet = packet_size();

    scene("An abort of Bulk-OUT in the middle of a transfer");
    memset(transfer, 'x', sizeof transfer);
    put_header(transfer, MESSAGE, newest_tag(device), packet, true);
    send_raw(device, "the first packet of two", transfer, packet);
    call(device, "abort of Bulk-OUT", USBTMC_IOCTL_ABORT_BULK_OUT, NULL);
    try_whole_command(device);
}

static void halt_out(int device)
{
    scene("A halt of Bulk-OUT, set and ended");
    set_halt(device, BULK_OUT);
    say_halt(device, BULK_OUT);
    send_text(device, "SETP 99\n");
    call(device, "end of the halt of Bulk-OUT", USBTMC_IOCTL_CLEAR_OUT_HALT, NULL);
    say_halt(device, BULK_OUT);
    try_whole_command(device);
}

static void halt_in(int device)
{
    scene("A halt of Bulk-IN, set and ended");
    set_halt(device, BULK_IN);
    say_halt(device, BULK_IN);
    send_text(device, "*IDN?\n");
    read_some(device, STORE);
    call(device, "end of the halt of Bulk-IN", USBTMC_IOCTL_CLEAR_IN_HALT, NULL);
    say_halt(device, BULK_IN);
    try_whole_command(device);
}

static void local_and_remote(int device)
{
    uint8_t on = 1, off = 0;

    scene("Remote and local");
    call(device, "REN on", USBTMC488_IOCTL_REN_CONTROL, &on);
    call(device, "local lockout", USBTMC488_IOCTL_LOCAL_LOCKOUT, NULL);
    call(device, "go to local", USBTMC488_IOCTL_GOTO_LOCAL, NULL);
    call(device, "REN off", USBTMC488_IOCTL_REN_CONTROL, &off);
    try_whole_command(device);
}

int main(void)
{
    int device = open_device();

    first_setpoint(92000);
    capabilities(device);
    clear_when_idle(device);
    clear_after_question(device);
    clear_in_an_answer(device);
    abort_when_idle(device);
    abort_in(device);
    abort_out(device);
    halt_out(device);
    halt_in(device);
    local_and_remote(device);
    scene("Trigger and pulse");
    call(device, "trigger", USBTMC488_IOCTL_TRIGGER, NULL);
    call(device, "pulse", USBTMC_IOCTL_INDICATOR_PULSE, NULL);
    try_whole_command(device);
    return all_said();
}
