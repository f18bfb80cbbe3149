#define _GNU_SOURCE
#include "device.h"

#include <errno.h>
#include <fcntl.h>
#include <poll.h>
#include <stdarg.h>
#include <stdio.h>
#include <stdlib.h>
#include <string.h>
#include <time.h>
#include <unistd.h>

static unsigned wrongs;
static unsigned setpoint;

static void say_line(const char *before, const char *format, va_list words)
{
    fputs(before, stdout);
    vprintf(format, words);
    putchar('\n');
    fflush(stdout);
}

void say(const char *format, ...)
{
    va_list words;

    va_start(words, format);
    say_line("  ", format, words);
    va_end(words);
}

void wrong(const char *format, ...)
{
    va_list words;

    wrongs++;
    va_start(words, format);
    say_line("  WRONG: ", format, words);
    va_end(words);
}

void scene(const char *title)
{
    printf("%s\n", title);
    fflush(stdout);
}

int all_said(void)
{
    return wrongs == 0 ? 0 : 1;
}

const char *quoted(const uint8_t *bytes, size_t length)
{
    static char text[4 * STORE + 3];
    char *at = text;
    size_t i;

    *at++ = '"';
    for (i = 0; i < length && i < STORE; i++) {
        if (bytes[i] == '\n')
            at += sprintf(at, "\\n");
        else if (bytes[i] < ' ' || bytes[i] > '~')
            at += sprintf(at, "\\x%02x", bytes[i]);
        else
            *at++ = (char)bytes[i];
    }
    *at++ = '"';
    *at = '\0';
    return text;
}

const char *outcome(long result)
{
    static char text[64];

    if (result >= 0)
        return "done";
    switch (errno) {
    case EPIPE:
        return "the endpoint is halted (EPIPE)";
    case ETIMEDOUT:
        return "nothing came in time (ETIMEDOUT)";
    case ENODEV:
        return "the device is gone (ENODEV)";
    case ESHUTDOWN:
        return "the device is gone (ESHUTDOWN)";
    default:
        snprintf(text, sizeof text, "%s", strerrorname_np(errno));
        return text;
    }
}

void wait_milliseconds(unsigned milliseconds)
{
    struct timespec left = {.tv_sec = milliseconds / 1000, .tv_nsec = (long)(milliseconds % 1000) * 1000000};

    while (nanosleep(&left, &left) != 0)
        ;
}

int open_device(void)
{
    int device = open("/dev/usbtmc0", O_RDWR);

    if (device < 0) {
        wrong("/dev/usbtmc0 does not open: %s", outcome(device));
        exit(1);
    }
    return device;
}

void set_limit(int device, unsigned milliseconds)
{
    uint32_t limit = milliseconds;

    if (ioctl(device, USBTMC_IOCTL_SET_TIMEOUT, &limit) != 0)
        wrong("the time limit is not taken: %s", outcome(-1));
}

void set_end(int device, bool end)
{
    uint8_t value = end;

    if (ioctl(device, USBTMC_IOCTL_EOM_ENABLE, &value) != 0)
        wrong("the end of message is not taken: %s", outcome(-1));
}

ssize_t send_bytes(int device, const uint8_t *bytes, size_t length)
{
    ssize_t sent = write(device, bytes, length);

    if (sent >= 0 && (size_t)sent != length)
        wrong("write of %zu bytes: %zd went", length, sent);
    else if (length > 64)
        say("write, %zu bytes: %s", length, outcome(sent));
    else
        say("write %s: %s", quoted(bytes, length), outcome(sent));
    return sent;
}

ssize_t send_text(int device, const char *text)
{
    return send_bytes(device, (const uint8_t *)text, strlen(text));
}

ssize_t read_some(int device, size_t room)
{
    uint8_t bytes[STORE];
    ssize_t came = read(device, bytes, room);

    if (came < 0)
        say("read: %s", outcome(came));
    else
        say("read: %s", quoted(bytes, (size_t)came));
    return came;
}

int call(int device, const char *name, unsigned long request, void *argument)
{
    int result = ioctl(device, request, argument);

    say("%s: %s", name, outcome(result));
    return result;
}

bool control(int device, const char *name, struct control setup, uint8_t *answer)
{
    struct usbtmc_ctrlrequest request = {
        .req = {.bRequestType = setup.type, .bRequest = setup.request, .wValue = setup.value, .wIndex = setup.index, .wLength = setup.length},
        .data = answer,
    };
    int came = ioctl(device, USBTMC_IOCTL_CTRL_REQUEST, &request);
    char text[3 * 64 + 1] = "";
    int i;

    if (came < 0) {
        say("%s: %s", name, errno == EPIPE ? "stalled" : outcome(came));
        return false;
    }
    for (i = 0; i < came && i < 64; i++)
        sprintf(text + 3 * i, " %02x", answer[i]);
    say("%s:%s", name, came == 0 ? " done" : text);
    return true;
}

bool asks_for_service(int device, int milliseconds)
{
    struct pollfd wanted = {.fd = device, .events = POLLPRI};

    return poll(&wanted, 1, milliseconds) == 1 && (wanted.revents & POLLPRI) != 0;
}

/* Gives the reply to a question, without a word. -1 where there is none. */
static ssize_t ask(int device, const char *question, uint8_t *reply, size_t room)
{
    if (write(device, question, strlen(question)) < 0)
        return -1;
    return read(device, reply, room);
}

void first_setpoint(unsigned thousandths)
{
    setpoint = thousandths;
}

void try_whole_command(int device)
{
    char command[32], answer[16];
    uint8_t reply[STORE];
    ssize_t came;

    set_limit(device, 5000);
    set_end(device, true);
    sprintf(answer, "%02u.%03u\n", setpoint / 1000 % 100, setpoint % 1000);
    sprintf(command, "SETP %s", answer);
    setpoint++;
    if (write(device, command, strlen(command)) < 0) {
        wrong("a whole command is not accepted: %s", outcome(-1));
        return;
    }
    came = ask(device, "SETP?\n", reply, sizeof reply);
    if (came < 0)
        wrong("a whole command, and then no answer: %s", outcome(came));
    else if ((size_t)came != strlen(answer) || memcmp(reply, answer, strlen(answer)) != 0)
        wrong("a whole command sets %.6s, and SETP? gives %s", answer, quoted(reply, (size_t)came));
    else
        say("a whole command: SETP %.6s arrives, and SETP? gives %s", answer, quoted(reply, (size_t)came));
}
