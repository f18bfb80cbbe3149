/* events [--halt | --reset] THOUSANDTHS: a service request by poll and the status byte by ioctl, after a halt of Interrupt-IN or a USB reset where one is asked
   for; and then a whole command with that setpoint. */
#include "raw.h"

#include <stdlib.h>
#include <string.h>

static void halt_and_end_it(int device)
{
    set_halt(device, INTERRUPT_IN);
    say_halt(device, INTERRUPT_IN);
    control(device, "CLEAR_FEATURE, halt of 0x83", (struct control){0x02, 1, 0, INTERRUPT_IN, 0}, NULL);
    say_halt(device, INTERRUPT_IN);
}

/* The room may come to its setpoint at any time, so that only the bit of the refused command is told. */
static void look(int device)
{
    uint8_t status = 0;
    int result;

    set_limit(device, 1000);
    send_text(device, "HEAT\n");
    say("poll: %s", asks_for_service(device, 2000) ? "a request" : "nothing");
    result = ioctl(device, USBTMC_IOCTL_GET_STB, &status);
    if (result < 0)
        say("the status byte: %s", outcome(result));
    else
        say("the status byte: the command was %s", status & 0x20 ? "refused" : "not refused");
}

int main(int count, char **words)
{
    int device = open_device();

    if (count == 3 && strcmp(words[1], "--halt") == 0)
        halt_and_end_it(device);
    if (count == 3 && strcmp(words[1], "--reset") == 0)
        reset_bus();
    look(device);
    first_setpoint((unsigned)atoi(words[count - 1]));
    try_whole_command(device);
    return all_said();
}
