#include "host.h"

#include "controller.h"
#include "firmware.h"
#include "names.h"
#include "trace.h"

#include <stdarg.h>
#include <stdio.h>
#include <string.h>

#define HEADER 12u

/* What has come of the answer that is being read. */
static struct {
    uint8_t bytes[1200];
    size_t length;
} reading;

static bool heard; /* of the thermostat */

static void line_begins(const char *who)
{
    printf("  %-11s ", who);
}

void firmware_says(const char *format, ...)
{
    va_list words;

    heard = true;
    line_begins("thermostat");
    va_start(words, format);
    vprintf(format, words);
    va_end(words);
    printf("\n");
}

/* The scenes are told from the host's side. */
void firmware_traces(const struct trace *trace)
{
    (void)trace;
}

void firmware_serves(const uint8_t setup[8], bool is_served, const uint8_t *bytes, size_t length)
{
    (void)setup, (void)is_served, (void)bytes, (void)length;
}

bool host_heard_thermostat(void)
{
    bool was = heard;

    heard = false;
    return was;
}

static const char *words_of(enum handshake handshake)
{
    switch (handshake) {
    case HANDSHAKE_ACK:
        return "ACK";
    case HANDSHAKE_NAK:
        return "NAK";
    default:
        return "STALL";
    }
}

/* Text with its line ends as \n. */
static void print_text(const uint8_t *bytes, size_t length)
{
    size_t i;

    printf("\"");
    for (i = 0; i < length; i++) {
        if (bytes[i] == '\n')
            printf("\\n");
        else
            printf("%c", bytes[i]);
    }
    printf("\"");
}

/* Setup packets, and the bus. */

void host_setup(struct setup setup)
{
    const uint8_t packet[8] = {setup.type,
                               setup.request,
                               (uint8_t)setup.value,
                               (uint8_t)(setup.value >> 8),
                               (uint8_t)setup.index,
                               (uint8_t)(setup.index >> 8),
                               (uint8_t)setup.length,
                               (uint8_t)(setup.length >> 8)};
    struct wire_answer answer = wire_event(EVENT_SETUP, packet, sizeof packet);
    size_t i;

    line_begins("host");
    printf("%s: %s", setup.name, words_of(answer.handshake));
    for (i = 0; i < answer.length; i++)
        printf(" %02x", answer.bytes[i]);
    if ((setup.type & 0x60) == 0x20 && answer.length != 0) /* a class request begins its answer with a status */
        printf(" (%s)", name_of_status(answer.bytes[0]));
    printf("\n");
}

void host_resets(void)
{
    line_begins("host");
    printf("resets the bus\n");
    wire_event(EVENT_RESET, NULL, 0);
}

void host_suspends(void)
{
    line_begins("host");
    printf("suspends the bus\n");
    wire_event(EVENT_SUSPEND, NULL, 0);
}

/* Bulk-OUT. */

static void put_header(uint8_t *packet, uint8_t kind, uint8_t tag, uint32_t size, uint8_t attributes)
{
    const uint8_t header[HEADER] = {kind,
                                    tag,
                                    (uint8_t)~tag,
                                    0,
                                    (uint8_t)size,
                                    (uint8_t)(size >> 8),
                                    (uint8_t)(size >> 16),
                                    (uint8_t)(size >> 24),
                                    attributes};

    memcpy(packet, header, HEADER);
}

/* Header, text, and zeros up to a multiple of four: the length of all. */
static size_t put_transfer(uint8_t *bytes, size_t room, uint8_t tag, uint8_t end, const char *text)
{
    size_t length = strlen(text);

    memset(bytes, 0, room);
    put_header(bytes, 1, tag, (uint32_t)length, end);
    memcpy(bytes + HEADER, text, length);
    return HEADER + (length + 3) / 4 * 4;
}

static void print_sent(const char *how, uint8_t tag, const char *text, enum handshake handshake)
{
    line_begins("host");
    printf("sends ");
    print_text((const uint8_t *)text, strlen(text));
    printf(" (tag %u%s): %s\n", tag, how, words_of(handshake));
}

void host_sends(uint8_t tag, uint8_t end, const char *text)
{
    uint8_t bytes[256];
    size_t length = put_transfer(bytes, sizeof bytes, tag, end, text);
    enum handshake handshake = HANDSHAKE_ACK;
    size_t size = controller_packet_size();
    size_t at;

    for (at = 0; at < length && handshake == HANDSHAKE_ACK; at += size)
        handshake = wire_event(EVENT_BULK_OUT, bytes + at, length - at < size ? length - at : size).handshake;
    print_sent(end ? "" : ", no EOM", tag, text, handshake);
}

void host_sends_while_masked(uint8_t tag, const char *text)
{
    uint8_t bytes[CONTROLLER_LARGEST];
    size_t length = put_transfer(bytes, sizeof bytes, tag, 1, text);

    wire_arrives_while_masked(bytes, length);
    line_begins("host");
    printf("sends ");
    print_text((const uint8_t *)text, strlen(text));
    printf(" (tag %u), just when the main loop has the interrupt masked\n", tag);
}

void host_sees_answer(void)
{
    line_begins("host");
    printf("sees it answered: %s\n", words_of(wire_arrived(0)));
}

void host_sends_and_asks_while_masked(uint8_t tag, const char *text, uint32_t size)
{
    uint8_t packet[HEADER];

    host_sends_while_masked(tag, text);
    put_header(packet, 2, (uint8_t)(tag + 1), size, 0);
    wire_arrives_while_masked(packet, HEADER);
    line_begins("host");
    printf("asks for up to %lu bytes (tag %u), at the same moment\n", (unsigned long)size, tag + 1u);
}

void host_sees_answers(void)
{
    line_begins("host");
    printf("sees them answered: %s, %s\n", words_of(wire_arrived(0)), words_of(wire_arrived(1)));
}

void host_sends_over(uint8_t tag, const char *text, const char *old)
{
    uint8_t bytes[CONTROLLER_LARGEST];
    size_t length = put_transfer(bytes, sizeof bytes, tag, 1, text);
    size_t end = HEADER + strlen(text);

    memcpy(bytes + end, old, length - end);
    print_sent(", and old bytes behind it", tag, text, wire_event(EVENT_BULK_OUT, bytes, length).handshake);
}

void host_sends_damaged(uint8_t tag, const char *text)
{
    uint8_t bytes[CONTROLLER_LARGEST];
    size_t length = put_transfer(bytes, sizeof bytes, tag, 1, text);

    bytes[2] = 0xFF;
    print_sent(", and an inverse that does not fit", tag, text, wire_event(EVENT_BULK_OUT, bytes, length).handshake);
}

void host_triggers(uint8_t tag)
{
    uint8_t packet[HEADER];

    put_header(packet, 128, tag, 0, 0);
    line_begins("host");
    printf("sends TRIGGER (tag %u): %s\n", tag, words_of(wire_event(EVENT_BULK_OUT, packet, HEADER).handshake));
}

void host_asks(uint8_t tag, uint32_t size)
{
    uint8_t packet[HEADER];

    put_header(packet, 2, tag, size, 0);
    reading.length = 0;
    line_begins("host");
    printf("asks for up to %lu bytes (tag %u): %s\n", (unsigned long)size, tag,
           words_of(wire_event(EVENT_BULK_OUT, packet, HEADER).handshake));
}

/* Bulk-IN. */

/* The text of the transfer, behind its header, with D0 where the device says that this is the end of its message. */
static void print_reading(void)
{
    if (reading.length < HEADER)
        return;
    line_begins("host");
    printf("has read ");
    print_text(reading.bytes + HEADER, reading.length - HEADER);
    printf(reading.bytes[8] & 1 ? ", whole (EOM)\n" : ", and there is more\n");
}

/* Whether more packets of the transfer are to come. */
static bool poll(void)
{
    struct wire_answer answer = wire_event(EVENT_BULK_IN, NULL, 0);

    line_begins("host");
    if (answer.handshake != HANDSHAKE_ACK) {
        printf("polls: %s\n", words_of(answer.handshake));
        return false;
    }
    memcpy(reading.bytes + reading.length, answer.bytes, answer.length);
    reading.length += answer.length;
    if (answer.length == controller_packet_size()) {
        printf("polls: ACK, a full packet\n");
        return true;
    }
    printf("polls: ACK, %zu bytes, which closes the transfer\n", answer.length);
    print_reading();
    reading.length = 0;
    return false;
}

void host_polls(void)
{
    poll();
}

void host_reads(void)
{
    while (poll())
        ;
}

/* Interrupt-IN. */

void host_polls_interrupt(void)
{
    struct wire_answer answer = wire_event(EVENT_INTERRUPT_IN, NULL, 0);

    line_begins("host");
    printf("polls Interrupt-IN: %s", words_of(answer.handshake));
    if (answer.handshake == HANDSHAKE_ACK && answer.bytes[0] == 0x81)
        printf(" %02x %02x, a service request", answer.bytes[0], answer.bytes[1]);
    else if (answer.handshake == HANDSHAKE_ACK)
        printf(" %02x %02x, the status byte that was asked for with tag %u", answer.bytes[0], answer.bytes[1], answer.bytes[0] - 0x80u);
    printf("\n");
}
