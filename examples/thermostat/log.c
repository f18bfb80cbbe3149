/* A line has the time in seconds, who does it, what it is in words and how it was answered. Behind a bar stands the same as a line of a script with the answer
   (vectors/README.md), which `./run replay` takes as it is. What changes nothing and would fill the log stands in it once: polls that wait, takes with no
   message there, a status byte that is set as it was. */
#define _POSIX_C_SOURCE 200809L

#include "log.h"

#include "trace.h"
#include "words.h"

#include <stdarg.h>
#include <stdio.h>
#include <string.h>
#include <time.h>

static FILE *file;
static struct timespec start;

bool log_start(const char *path)
{
    clock_gettime(CLOCK_MONOTONIC, &start);
    file = fopen(path, "w");
    return file != NULL;
}

static void begin_line(const char *who)
{
    struct timespec time;
    long milliseconds;

    clock_gettime(CLOCK_MONOTONIC, &time);
    milliseconds = (long)(time.tv_sec - start.tv_sec) * 1000 + (time.tv_nsec - start.tv_nsec) / 1000000;
    fprintf(file, "%5ld.%03ld  %-10s  ", milliseconds / 1000, milliseconds % 1000, who);
}

void log_line(const char *who, const char *format, ...)
{
    va_list words;

    if (file == NULL)
        return;
    begin_line(who);
    va_start(words, format);
    vfprintf(file, format, words);
    va_end(words);
    fputc('\n', file);
    fflush(file);
}

/* The same as a line of a script. */

static void put_hex(const uint8_t *bytes, size_t length)
{
    size_t i;

    if (length == 0)
        fputc('-', file);
    for (i = 0; i < length; i++)
        fprintf(file, "%02x", bytes[i]);
}

static const char *const calls[] = {[TRACED_POWER_ON] = "power",      [TRACED_SETUP] = "setup",   [TRACED_BULK_OUT] = "out",
                                    [TRACED_BULK_IN] = "in",          [TRACED_INTERRUPT_IN] = "in3", [TRACED_TAKE] = "take",
                                    [TRACED_OFFER] = "offer",         [TRACED_SET_STATUS] = "status", [TRACED_PANEL] = "local",
                                    [TRACED_BUS_RESET] = "reset",     [TRACED_SUSPEND] = "suspend"};

static bool gives_bytes(enum traced call)
{
    return call == TRACED_SETUP || call == TRACED_BULK_IN || call == TRACED_INTERRUPT_IN || call == TRACED_TAKE;
}

static bool has_bytes(enum traced call)
{
    return call == TRACED_SETUP || call == TRACED_BULK_OUT || call == TRACED_OFFER || call == TRACED_SET_STATUS;
}

static void put_script(const struct trace *trace)
{
    fprintf(file, " | %s", calls[trace->call]);
    if (trace->call == TRACED_POWER_ON)
        fprintf(file, " %u", trace->given[0] | trace->given[1] << 8);
    if (has_bytes(trace->call)) {
        fputc(' ', file);
        put_hex(trace->given, trace->given_length);
    }
    fprintf(file, " #= %u", trace->answer.number);
    if (trace->answer.tells != TMC_TELLS_NOTHING)
        fprintf(file, trace->answer.tells == TMC_TELLS_TRIGGER ? " trigger" : " pulse");
    if (gives_bytes(trace->call) && trace->answer.number == TMC_NUMBER_DONE) {
        fputc(' ', file);
        put_hex(trace->bytes, trace->answer.length);
    }
    fputc('\n', file);
}

/* In words. */

static const char *who(enum traced call)
{
    switch (call) {
    case TRACED_SETUP:
        return "setup";
    case TRACED_BULK_OUT:
        return "Bulk-OUT";
    case TRACED_BULK_IN:
        return "Bulk-IN";
    case TRACED_INTERRUPT_IN:
        return "Interrupt";
    case TRACED_BUS_RESET:
    case TRACED_SUSPEND:
        return "bus";
    default:
        return "thermostat";
    }
}

static void put_words(const struct trace *trace)
{
    const bool is_done = trace->answer.number == TMC_NUMBER_DONE;
    char words[160] = "polls";
    char more[80] = "";

    switch (trace->call) {
    case TRACED_POWER_ON:
        strcpy(words, "is switched on");
        break;
    case TRACED_SETUP:
        words_of_setup(words, sizeof words, trace->given);
        words_of_setup_answer(more, sizeof more, trace->given, trace->bytes, trace->answer.length);
        break;
    case TRACED_BULK_OUT:
        words_of_packet(words, sizeof words, trace->given, trace->given_length, trace->begins);
        break;
    case TRACED_BULK_IN:
        if (is_done)
            words_of_packet(words, sizeof words, trace->bytes, trace->answer.length, trace->begins);
        break;
    case TRACED_INTERRUPT_IN:
        if (is_done)
            words_of_interrupt(words, sizeof words, trace->bytes);
        break;
    case TRACED_TAKE:
        strcpy(words, "takes ");
        words_of_text(words + 6, sizeof words - 6, trace->bytes, trace->answer.length);
        break;
    case TRACED_OFFER:
        strcpy(words, "offers ");
        words_of_text(words + 7, sizeof words - 7, trace->given, trace->given_length);
        break;
    case TRACED_SET_STATUS:
        snprintf(words, sizeof words, "sets the status byte to %02x", trace->given[0]);
        break;
    case TRACED_PANEL:
        strcpy(words, "has its key for local pressed");
        break;
    case TRACED_BUS_RESET:
        strcpy(words, "is reset");
        break;
    case TRACED_SUSPEND:
        strcpy(words, "is suspended");
        break;
    }
    fprintf(file, "%s: %u %s%s", words, trace->answer.number, words_of_number(trace->answer.number), more);
}

/* What would fill the log. */

static bool is_said_already(const struct trace *trace)
{
    static bool waits[TRACED_SUSPEND + 1]; /* the last line of this call says so */
    static int status = -1;               /* the byte of the last line */
    bool is_wait = trace->answer.number == TMC_NUMBER_WAIT || trace->answer.number == TMC_NUMBER_NOT_NOW;
    bool was_waiting = waits[trace->call];

    waits[trace->call] = is_wait;
    if (trace->call == TRACED_TAKE)
        return is_wait || trace->answer.number == TMC_NUMBER_UNCONFIGURED;
    if (trace->call == TRACED_SET_STATUS) {
        int last = status;

        status = trace->answer.number == TMC_NUMBER_DONE ? trace->given[0] : -1;
        return trace->answer.number == TMC_NUMBER_UNCONFIGURED || status == last;
    }
    if (trace->call == TRACED_BUS_RESET || (trace->call == TRACED_SETUP && trace->given[0] == 0 && trace->given[1] == 9))
        status = -1;
    return is_wait && was_waiting;
}

void firmware_traces(const struct trace *trace)
{
    if (file == NULL || is_said_already(trace))
        return;
    begin_line(who(trace->call));
    put_words(trace);
    put_script(trace);
    fflush(file);
}

void firmware_serves(const uint8_t setup[8], bool is_served, const uint8_t *bytes, size_t length)
{
    char words[160];
    char more[80];

    if (file == NULL)
        return;
    words_of_setup(words, sizeof words, setup);
    words_of_setup_answer(more, sizeof more, setup, bytes, length);
    log_line("device", "%s %s%s", is_served ? "serves" : "stalls", words, more);
}
