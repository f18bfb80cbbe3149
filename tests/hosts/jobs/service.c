/* Service requests: by poll, by ioctl, by signal. A message that is no command makes the thermostat ask for service. */
#define _GNU_SOURCE
#include "device.h"

#include <fcntl.h>
#include <signal.h>
#include <string.h>
#include <time.h>
#include <unistd.h>

static void ask_for_service(int device)
{
    send_text(device, "HEAT\n");
}

static void look(int device)
{
    uint8_t status = 0xFF;

    if (ioctl(device, USBTMC_IOCTL_GET_SRQ_STB, &status) == 0)
        say("the byte of the service request: %02x", status);
    else
        say("the byte of the service request: %s", outcome(-1));
}

static void read_status(int device, const char *name, unsigned long request)
{
    uint8_t status = 0xFF;
    int result = ioctl(device, request, &status);

    if (result < 0)
        say("%s: %s", name, outcome(result));
    else
        say("%s: %02x", name, status);
}

static void by_poll(int device)
{
    scene("A service request by poll");
    say("poll before it: %s", asks_for_service(device, 300) ? "a request" : "nothing");
    ask_for_service(device);
    say("poll: %s", asks_for_service(device, 5000) ? "a request" : "nothing");
    look(device);
    look(device);
    say("poll afterwards: %s", asks_for_service(device, 300) ? "a request" : "nothing");
}

static void by_ioctl(int device)
{
    uint32_t limit = 300;

    scene("A service request by ioctl");
    call(device, "wait before it", USBTMC488_IOCTL_WAIT_SRQ, &limit);
    ask_for_service(device);
    limit = 5000;
    call(device, "wait", USBTMC488_IOCTL_WAIT_SRQ, &limit);
    read_status(device, "the status byte, with the request's bit", USBTMC488_IOCTL_READ_STB);
    read_status(device, "the status byte again", USBTMC488_IOCTL_READ_STB);
}

static void by_signal(int device)
{
    sigset_t wanted;
    struct timespec limit = {.tv_sec = 5, .tv_nsec = 0}, short_limit = {.tv_sec = 0, .tv_nsec = 300000000};

    scene("A service request by signal");
    sigemptyset(&wanted);
    sigaddset(&wanted, SIGIO);
    sigprocmask(SIG_BLOCK, &wanted, NULL);
    if (fcntl(device, F_SETOWN, getpid()) != 0 || fcntl(device, F_SETFL, fcntl(device, F_GETFL) | O_ASYNC) != 0)
        wrong("the signal cannot be asked for: %s", outcome(-1));
    say("signal before it: %s", sigtimedwait(&wanted, NULL, &short_limit) == SIGIO ? "SIGIO" : "none");
    ask_for_service(device);
    say("signal: %s", sigtimedwait(&wanted, NULL, &limit) == SIGIO ? "SIGIO" : "none");
    look(device);
    fcntl(device, F_SETFL, fcntl(device, F_GETFL) & ~O_ASYNC);
}

static void while_a_read_waits(int device)
{
    uint8_t reply[STORE];
    ssize_t came;

    scene("The status byte, while an answer is worked on");
    send_text(device, "TEMP?\n");
    read_status(device, "the status byte", USBTMC488_IOCTL_READ_STB);
    came = read(device, reply, sizeof reply);
    if (came < 0)
        wrong("the answer does not come: %s", outcome(came));
    else
        say("read: an answer of %zd bytes", came);
}

static void tells_two_files(int device)
{
    int other = open_device();

    scene("One request, two files");
    ask_for_service(device);
    say("poll of the first: %s", asks_for_service(device, 5000) ? "a request" : "nothing");
    say("poll of the second: %s", asks_for_service(other, 5000) ? "a request" : "nothing");
    look(device);
    look(other);
    close(other);
}

int main(void)
{
    int device = open_device();

    first_setpoint(93000);
    try_whole_command(device);
    by_poll(device);
    by_ioctl(device);
    by_signal(device);
    tells_two_files(device);
    try_whole_command(device);
    read_status(device, "the status byte after a command", USBTMC488_IOCTL_READ_STB);
    while_a_read_waits(device);
    try_whole_command(device);
    return all_said();
}
