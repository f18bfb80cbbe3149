#include "words.h"

#include "names.h"

#include <stdio.h>
#include <string.h>

const char *words_of_number(unsigned number)
{
    /* By place; 14 is free. */
    static const char *const names[] = {
        "done",          "unsound",  "unconfigured", "wrong size", "halted",      "wait", "not in fours", "short header", "bad tag",
        "unknown MsgID", "reserved", "wrong length", "too long",   "out of turn", "?",    "no row",       "not now"};

    return number < sizeof names / sizeof names[0] ? names[number] : "?";
}

void words_of_text(char *words, size_t room, const uint8_t *text, size_t length)
{
    size_t at = 0;
    size_t i;

    words[at++] = '"';
    for (i = 0; i < length && at + 8 < room; i++) {
        if (text[i] == '\n') {
            words[at++] = '\\';
            words[at++] = 'n';
        } else {
            words[at++] = text[i] >= ' ' && text[i] <= '~' ? (char)text[i] : '.';
        }
    }
    if (i < length)
        at += (size_t)snprintf(words + at, room - at, "..");
    snprintf(words + at, room - at, "\"");
}

/* Setup packets. */

enum shown { NOTHING, VALUE, TAG, ENDPOINT, DESCRIPTOR };

struct request {
    uint8_t type, number;
    const char *name;
    enum shown shown;
    bool has_status; /* the answer begins with a USBTMC status */
};

static const struct request requests[] = {
    {0x00, 0x09, "SET_CONFIGURATION", VALUE, false},
    {0x80, 0x08, "GET_CONFIGURATION", NOTHING, false},
    {0x00, 0x05, "SET_ADDRESS", VALUE, false},
    {0x80, 0x06, "GET_DESCRIPTOR", DESCRIPTOR, false},
    {0x81, 0x0A, "GET_INTERFACE", NOTHING, false},
    {0x01, 0x0B, "SET_INTERFACE", VALUE, false},
    {0x80, 0x00, "GET_STATUS of the device", NOTHING, false},
    {0x81, 0x00, "GET_STATUS of the interface", NOTHING, false},
    {0x82, 0x00, "GET_STATUS", ENDPOINT, false},
    {0x02, 0x01, "CLEAR_FEATURE", ENDPOINT, false},
    {0x02, 0x03, "SET_FEATURE", ENDPOINT, false},
    {0xA2, 0x01, "INITIATE_ABORT_BULK_OUT", TAG, true},
    {0xA2, 0x02, "CHECK_ABORT_BULK_OUT_STATUS", NOTHING, true},
    {0xA2, 0x03, "INITIATE_ABORT_BULK_IN", TAG, true},
    {0xA2, 0x04, "CHECK_ABORT_BULK_IN_STATUS", NOTHING, true},
    {0xA1, 0x05, "INITIATE_CLEAR", NOTHING, true},
    {0xA1, 0x06, "CHECK_CLEAR_STATUS", NOTHING, true},
    {0xA1, 0x07, "GET_CAPABILITIES", NOTHING, true},
    {0xA1, 0x40, "INDICATOR_PULSE", NOTHING, true},
    {0xA1, 0x80, "READ_STATUS_BYTE", TAG, true},
    {0xA1, 0xA0, "REN_CONTROL", VALUE, true},
    {0xA1, 0xA1, "GO_TO_LOCAL", NOTHING, true},
    {0xA1, 0xA2, "LOCAL_LOCKOUT", NOTHING, true},
};

static const struct request *find_request(const uint8_t *setup)
{
    size_t i;

    for (i = 0; i < sizeof requests / sizeof requests[0]; i++)
        if (requests[i].type == setup[0] && requests[i].number == setup[1])
            return &requests[i];
    return NULL;
}

static const char *name_of_descriptor(unsigned kind)
{
    static const char *const names[] = {"?", "device", "configuration", "string", "interface", "endpoint", "device qualifier", "other speed"};

    return kind < sizeof names / sizeof names[0] ? names[kind] : "?";
}

void words_of_setup(char *words, size_t room, const uint8_t setup[8])
{
    const struct request *request = find_request(setup);
    unsigned value = setup[2] | (unsigned)setup[3] << 8;
    unsigned asked = setup[6] | (unsigned)setup[7] << 8;

    if (request == NULL) {
        snprintf(words, room, "a request of type %02x and number %02x", setup[0], setup[1]);
        return;
    }
    switch (request->shown) {
    case NOTHING:
        snprintf(words, room, "%s", request->name);
        break;
    case VALUE:
        snprintf(words, room, "%s %u", request->name, value);
        break;
    case TAG:
        snprintf(words, room, "%s tag %u", request->name, value);
        break;
    case ENDPOINT:
        snprintf(words, room, "%s of endpoint 0x%02x", request->name, setup[4]);
        break;
    case DESCRIPTOR:
        snprintf(words, room, "%s %s %u, at most %u bytes", request->name, name_of_descriptor(setup[3]), setup[2], asked);
        break;
    }
}

void words_of_setup_answer(char *words, size_t room, const uint8_t setup[8], const uint8_t *bytes, size_t length)
{
    const struct request *request = find_request(setup);

    if (request != NULL && request->has_status && length != 0)
        snprintf(words, room, ", status %02x %s", bytes[0], name_of_status(bytes[0]));
    else if (length != 0)
        snprintf(words, room, ", %zu bytes", length);
    else
        words[0] = 0;
}

/* Bulk packets. */

#define HEADER 12u

static unsigned long size_of(const uint8_t *header)
{
    return header[4] | (unsigned long)header[5] << 8 | (unsigned long)header[6] << 16 | (unsigned long)header[7] << 24;
}

/* DEV_DEP_MSG_OUT and DEV_DEP_MSG_IN have the same header but for their MsgID. */
static void words_of_data(char *words, size_t room, const char *name, const uint8_t *packet, size_t length)
{
    unsigned long size = size_of(packet);
    size_t data = length - HEADER < size ? length - HEADER : (size_t)size;
    int used = snprintf(words, room, "%s tag %u, %lu bytes%s, ", name, packet[1], size, packet[8] & 1 ? ", EOM" : ", no EOM");

    words_of_text(words + used, room - (size_t)used, packet + HEADER, data);
}

static void words_of_request(char *words, size_t room, const uint8_t *packet)
{
    int used = snprintf(words, room, "REQUEST_DEV_DEP_MSG_IN tag %u, at most %lu bytes", packet[1], size_of(packet));

    if (packet[8] & 2)
        snprintf(words + used, room - (size_t)used, ", TermChar %02x", packet[9]);
}

void words_of_packet(char *words, size_t room, const uint8_t *packet, size_t length, bool begins)
{
    if (length == 0) {
        snprintf(words, room, "an empty packet");
    } else if (!begins) {
        int used = snprintf(words, room, "%zu bytes more, ", length);

        words_of_text(words + used, room - (size_t)used, packet, length);
    } else if (length < HEADER) {
        snprintf(words, room, "%zu bytes, and no header", length);
    } else if (packet[0] == 1) {
        words_of_data(words, room, "DEV_DEP_MSG_OUT", packet, length);
    } else if (packet[0] == 2 && length == HEADER) {
        words_of_request(words, room, packet);
    } else if (packet[0] == 2) {
        words_of_data(words, room, "DEV_DEP_MSG_IN", packet, length);
    } else if (packet[0] == 128) {
        snprintf(words, room, "TRIGGER tag %u", packet[1]);
    } else {
        snprintf(words, room, "a header with MsgID %u", packet[0]);
    }
}

void words_of_interrupt(char *words, size_t room, const uint8_t *packet)
{
    if (packet[0] == 0x81)
        snprintf(words, room, "a service request, status byte %02x", packet[1]);
    else
        snprintf(words, room, "the status byte %02x, for tag %u", packet[1], packet[0] - 0x80u);
}
