/* A thermostat on a USB bus that is a connection on 127.0.0.1: the example's firmware behind a controller that speaks USB/IP. */
#define _POSIX_C_SOURCE 200809L

#include "firmware.h"
#include "log.h"
#include "server.h"
#include "tewennos.h"
#include "transfers.h"

#include <errno.h>
#include <poll.h>
#include <signal.h>
#include <stdarg.h>
#include <stdio.h>
#include <stdlib.h>
#include <string.h>
#include <time.h>
#include <unistd.h>

#define TICK 20 /* milliseconds that nothing may happen before the firmware has its turn all the same */

struct options {
    bool is_fast;
    enum controller_kind kind;
    bool echoes;
    long port;
    const char *log;
};

static bool heard; /* of the firmware */
static volatile sig_atomic_t is_over;

/* The room: it goes to the setpoint's side by a degree a second. */

static struct {
    int32_t temperature; /* in thousandths of a degree */
    uint32_t measured;   /* on the clock */
    int32_t wanted;
} room = {.temperature = 19000, .wanted = 20000};

uint32_t firmware_milliseconds(void)
{
    struct timespec time;

    clock_gettime(CLOCK_MONOTONIC, &time);
    return (uint32_t)((int64_t)time.tv_sec * 1000 + time.tv_nsec / 1000000);
}

int32_t firmware_measures(void)
{
    uint32_t now = firmware_milliseconds();
    int32_t passed = (int32_t)(now - room.measured);
    int32_t missing = room.wanted - room.temperature;

    room.measured = now;
    if (missing > passed)
        missing = passed;
    if (missing < -passed)
        missing = -passed;
    room.temperature += missing;
    return room.temperature;
}

void firmware_heats(int32_t setpoint)
{
    room.wanted = setpoint;
}

void firmware_says(const char *format, ...)
{
    char words[200];
    va_list list;

    heard = true;
    va_start(list, format);
    vsnprintf(words, sizeof words, format, list);
    va_end(list);
    log_line("thermostat", "%s", words);
}

/* What nobody reads must not hold it up: where standard output is full, the line is left out. */
static bool is_heard(void)
{
    struct pollfd out = {.fd = STDOUT_FILENO, .events = POLLOUT};

    return poll(&out, 1, 0) == 1 && (out.revents & POLLOUT) != 0;
}

void server_says(const char *words)
{
    if (is_heard()) {
        printf("thermostat: %s\n", words);
        fflush(stdout);
    }
    log_line("server", "%s", words);
}

/* The words that it is started with. */

static bool read_port(const char *word, long *port)
{
    char *end;

    errno = 0;
    *port = strtol(word, &end, 10);
    return errno == 0 && *word != 0 && *end == 0 && *port >= 0 && *port <= 65535;
}

/* `./run thermostat` refuses the same words before the program is built, and says what they mean. */
static bool read_options(int count, char **words, struct options *options)
{
    int i;

    for (i = 1; i < count; i++) {
        const char *word = words[i];
        const char *next = i + 1 < count ? words[i + 1] : NULL;

        if (strcmp(word, "--ahead") == 0) {
            options->kind = CONTROLLER_WORKS_AHEAD;
        } else if (strcmp(word, "--echo") == 0) {
            options->echoes = true;
        } else if (strcmp(word, "--speed") == 0 && next != NULL && (strcmp(next, "full") == 0 || strcmp(next, "high") == 0)) {
            options->is_fast = strcmp(next, "high") == 0;
            i++;
        } else if (strcmp(word, "--port") == 0 && next != NULL && read_port(next, &options->port)) {
            i++;
        } else if (strcmp(word, "--log") == 0 && next != NULL) {
            options->log = next;
            i++;
        } else {
            fprintf(stderr, "thermostat: '%s' is no option, or what follows it does not fit: ./run help has them\n", word);
            return false;
        }
    }
    return true;
}

static void introduce(const struct options *options, unsigned port)
{
    printf("thermostat: it waits for a host on 127.0.0.1:%u, as bus id %s, at %s speed (packets of %u bytes)%s%s\n", port, USBIP_BUS_ID,
           options->is_fast ? "high" : "full", options->is_fast ? TMC_HIGH_SPEED : TMC_FULL_SPEED,
           options->kind == CONTROLLER_WORKS_AHEAD ? ", with a controller that works ahead" : "", options->echoes ? ", and echoes" : "");
    printf("thermostat: attach it, as root:   modprobe vhci-hcd && usbip --tcp-port %u attach -r 127.0.0.1 -b %s\n", port, USBIP_BUS_ID);
    printf("thermostat: then ask it:          exec 3<>/dev/usbtmc0; echo '*IDN?' >&3; head -n 1 <&3; exec 3>&-\n");
    printf("thermostat: detach it, as root:   usbip detach -p 00    (usbip port has the number)\n");
    printf("thermostat: end it with Ctrl-C. docs/HOSTS.md has its commands, and what hosts do with it\n");
    fflush(stdout);
}

static void end_it(int number)
{
    (void)number;
    is_over = 1;
}

/* Each side goes on as long as the other one moved. A host that keeps it busy must not keep other connections waiting. */
static void play(void)
{
    unsigned turns;

    for (turns = 0; turns < 100; turns++) {
        bool moved = transfers_play();

        heard = false;
        firmware_turn();
        if (!moved && !heard)
            return;
    }
}

int main(int count, char **words)
{
    struct options options = {.port = USBIP_PORT};
    unsigned port;

    if (!read_options(count, words, &options))
        return 2;
    if (options.log != NULL && !log_start(options.log)) {
        fprintf(stderr, "thermostat: the log %s cannot be written: %s\n", options.log, strerror(errno));
        return 2;
    }
    port = server_start((uint16_t)options.port, options.is_fast);
    if (port == 0) {
        fprintf(stderr, "thermostat: it cannot listen on 127.0.0.1:%ld: %s. Try another port with --port N\n", options.port, strerror(errno));
        return 1;
    }
    signal(SIGINT, end_it);
    signal(SIGTERM, end_it);
    signal(SIGPIPE, SIG_IGN); /* nobody may read what it says */
    room.measured = firmware_milliseconds();
    firmware_start(options.kind, options.is_fast ? TMC_HIGH_SPEED : TMC_FULL_SPEED);
    if (options.echoes)
        firmware_echoes();
    introduce(&options, port);
    while (!is_over) {
        server_wait(TICK);
        play();
        server_flush();
    }
    printf("thermostat: it is switched off\n");
    return 0;
}
