/* Plays the port by lines, one call a line and one answer a line, as vectors/README.md says. */
#include "plain.h"

#include <stdbool.h>
#include <stdio.h>
#include <string.h>
#include <unistd.h>

#define LONGEST_LINE 4096
#define LARGEST_SIZE 65535
#define LARGEST_BUFFER 2048
#define FILL 0xA5         /* what a lent buffer holds before the call */
#define LONGEST_ANSWER 4096

struct word {
    const char *text;
    size_t length;
};

struct player {
    struct plain_unit unit;
    uint8_t bytes[LONGEST_LINE / 2]; /* of a word in hex */
    uint8_t buffer[LARGEST_BUFFER];  /* lent to a call */
    char line[LONGEST_LINE + 1];     /* of a line that is too long, one byte more than it may have */
    size_t line_length;
    char out[1 << 16];
    size_t out_length;
};

/* Writes out what is answered. */
static bool flush(struct player *p)
{
    size_t at = 0;

    while (at < p->out_length) {
        ssize_t count = write(STDOUT_FILENO, p->out + at, p->out_length - at);
        if (count <= 0)
            return false;
        at += (size_t)count;
    }
    p->out_length = 0;
    return true;
}

static void put(struct player *p, const char *text)
{
    size_t length = strlen(text);

    memcpy(p->out + p->out_length, text, length);
    p->out_length += length;
}

static void put_hex(struct player *p, const uint8_t *bytes, size_t length)
{
    static const char digits[] = "0123456789abcdef";
    size_t i;

    if (length == 0)
        put(p, "-");
    for (i = 0; i < length; i++) {
        p->out[p->out_length++] = digits[bytes[i] >> 4];
        p->out[p->out_length++] = digits[bytes[i] & 15];
    }
}

static void put_decimal(struct player *p, unsigned n)
{
    char text[16];

    snprintf(text, sizeof text, "%u", n);
    put(p, text);
}

static void put_number(struct player *p, uint8_t number)
{
    put_decimal(p, number);
    put(p, "\n");
}

/* The answer of a call; `room` bytes of p->buffer were lent to it where `lent` holds. */
static void put_answer(struct player *p, struct plain_answer answer, bool lent, size_t room)
{
    size_t length = answer.number == PLAIN_DONE ? answer.length : 0;
    bool spilled = length > room;

    put_decimal(p, answer.number);
    if (answer.tells == PLAIN_TRIGGER)
        put(p, " trigger");
    if (answer.tells == PLAIN_PULSE)
        put(p, " pulse");
    if (lent && answer.number == PLAIN_DONE) {
        put(p, " ");
        put_hex(p, p->buffer, spilled ? room : length);
    }
    /* The whole buffer is looked at, behind what was lent too. */
    for (; lent && length < sizeof p->buffer; length++)
        if (p->buffer[length] != FILL)
            spilled = true;
    put(p, spilled ? " spilled\n" : "\n");
}

static void put_state(struct player *p)
{
    static const char *const remotes[] = {"LOCS", "REMS", "LWLS", "RWLS"};
    static const char *const splits[] = {"none", "abort-out", "abort-in", "clear"};
    const struct plain_unit *u = &p->unit;
    char message[16] = "none";
    char text[256];

    if (u->out_ready || u->out_held != 0 || u->out_left != 0)
        snprintf(message, sizeof message, "%s:%u", u->out_ready ? "ready" : "part", u->out_held);
    snprintf(text, sizeof text,
             "0 configured=%u ren=%u remote=%s status=%02x out=%s in=%s message=%s reply=%u split=%s owed=%d "
             "tags=%02x,%02x\n",
             u->configured, u->ren, remotes[u->remote & 3], u->status, u->out_halted ? "halted" : "running",
             u->in_halted ? "halted" : "running", message, u->reply_left, splits[u->split & 3],
             u->in_phase == PLAIN_OWED, u->out_tag, u->in_recent);
    put(p, text);
}

static void put_more(struct player *p)
{
    const struct plain_unit *u = &p->unit;
    char waiting[8] = "none";
    char text[64];

    if (u->notify1 != 0)
        snprintf(waiting, sizeof waiting, "%02x%02x", u->notify1, u->notify2);
    snprintf(text, sizeof text, "0 p=%u int=%s int-endpoint=%s\n", u->packet_size, waiting,
             u->interrupt_halted ? "halted" : "running");
    put(p, text);
}

static bool is(struct word word, const char *text)
{
    return word.length == strlen(text) && memcmp(word.text, text, word.length) == 0;
}

/* A decimal number, which stays as it was where it is not given. What cannot be read gives false. */
static bool read_decimal(struct word word, size_t most, size_t *n)
{
    size_t i;

    if (word.length == 0)
        return true;
    *n = 0;
    for (i = 0; i < word.length; i++) {
        if (word.text[i] < '0' || word.text[i] > '9')
            return false;
        if (*n <= most)
            *n = *n * 10 + (size_t)(word.text[i] - '0');
    }
    return *n <= most;
}

static int digit(char c)
{
    if (c >= '0' && c <= '9')
        return c - '0';
    if (c >= 'a' && c <= 'f')
        return c - 'a' + 10;
    if (c >= 'A' && c <= 'F')
        return c - 'A' + 10;
    return -1;
}

/* Bytes in hex, into p->bytes. */
static bool read_hex(struct player *p, struct word word, size_t *count)
{
    size_t i;

    *count = 0;
    if (is(word, "-"))
        return true;
    if (word.length % 2 != 0)
        return false;
    for (i = 0; i < word.length; i += 2) {
        int high = digit(word.text[i]);
        int low = digit(word.text[i + 1]);
        if (high < 0 || low < 0)
            return false;
        p->bytes[(*count)++] = (uint8_t)(high << 4 | low);
    }
    return true;
}

/* The words of a line up to its comment; as many as there is place for, and the number of those. */
static size_t split_words(const char *line, size_t length, struct word *words, size_t most)
{
    size_t count = 0;
    size_t at = 0;

    if (length != 0 && line[length - 1] == '\r')
        length--;
    while (count < most) {
        size_t from;
        while (at < length && (line[at] == ' ' || line[at] == '\t'))
            at++;
        from = at;
        while (at < length && line[at] != ' ' && line[at] != '\t' && line[at] != '#')
            at++;
        if (at == from)
            break;
        words[count].text = line + from;
        words[count].length = at - from;
        count++;
    }
    return count;
}

static void unreadable(struct player *p, const char *why)
{
    put(p, "? ");
    put(p, why);
    put(p, "\n");
}

static void call_setup(struct player *p, struct word hex, struct word size)
{
    size_t room = PLAIN_CONTROL_BUFFER;
    size_t length;

    if (!read_hex(p, hex, &length)) {
        unreadable(p, "the packet is not pairs of hex digits");
    } else if (!read_decimal(size, LARGEST_BUFFER, &room)) {
        unreadable(p, "the buffer is no number up to 2048");
    } else {
        memset(p->buffer, FILL, sizeof p->buffer);
        put_answer(p, plain_setup(&p->unit, p->bytes, length, p->buffer, room), true, room);
    }
}

static void call_lent(struct player *p, struct plain_answer (*call)(struct plain_unit *, uint8_t *, size_t),
                      struct word size, size_t room)
{
    if (!read_decimal(size, LARGEST_BUFFER, &room)) {
        unreadable(p, "the buffer is no number up to 2048");
    } else {
        memset(p->buffer, FILL, sizeof p->buffer);
        put_answer(p, call(&p->unit, p->buffer, room), true, room);
    }
}

static void call_with_bytes(struct player *p, struct word name, struct word hex)
{
    size_t length;

    if (!read_hex(p, hex, &length))
        unreadable(p, "the bytes are not pairs of hex digits");
    else if (is(name, "out"))
        put_answer(p, plain_packet(&p->unit, p->bytes, length), false, 0);
    else if (is(name, "offer"))
        put_number(p, plain_offer(&p->unit, p->bytes, length));
    else if (length != 1)
        unreadable(p, "a status byte is two hex digits");
    else
        put_number(p, plain_set_status(&p->unit, p->bytes[0]));
}

static void call_power(struct player *p, struct word word)
{
    size_t size = 0;

    if (!read_decimal(word, LARGEST_SIZE, &size))
        unreadable(p, "the packet size is no number up to 65535");
    else
        put_number(p, plain_power_on(&p->unit, size));
}

/* How many words stand behind a name. */
static const struct {
    const char *name;
    size_t least, most;
} calls[] = {
    {"power", 1, 1},  {"setup", 1, 2}, {"out", 1, 1},   {"in", 0, 1},      {"in3", 0, 1},   {"take", 0, 1}, {"offer", 1, 1},
    {"status", 1, 1}, {"local", 0, 0}, {"reset", 0, 0}, {"suspend", 0, 0}, {"state", 0, 0}, {"more", 0, 0},
};

static void answer_line(struct player *p)
{
    struct word words[4] = {{"", 0}, {"", 0}, {"", 0}, {"", 0}};
    size_t given;
    size_t i = 0;

    if (p->line_length > LONGEST_LINE) {
        unreadable(p, "the line has over 4096 bytes and was skipped");
        return;
    }
    given = split_words(p->line, p->line_length, words, 4);
    if (given-- == 0)
        return;
    while (i < sizeof calls / sizeof calls[0] && !is(words[0], calls[i].name))
        i++;
    if (i == sizeof calls / sizeof calls[0])
        unreadable(p, "this is no call");
    else if (given < calls[i].least)
        unreadable(p, "the call needs a word more");
    else if (given > calls[i].most)
        unreadable(p, "the call has a word too many");
    else if (is(words[0], "power"))
        call_power(p, words[1]);
    else if (is(words[0], "setup"))
        call_setup(p, words[1], words[2]);
    else if (is(words[0], "in"))
        call_lent(p, plain_poll, words[1], p->unit.packet_size);
    else if (is(words[0], "in3"))
        call_lent(p, plain_interrupt_poll, words[1], PLAIN_NOTIFY);
    else if (is(words[0], "take"))
        call_lent(p, plain_take, words[1], PLAIN_STORE);
    else if (is(words[0], "local"))
        put_number(p, plain_return_to_local(&p->unit));
    else if (is(words[0], "reset"))
        put_number(p, plain_bus_reset(&p->unit));
    else if (is(words[0], "suspend"))
        put_number(p, plain_suspend(&p->unit));
    else if (is(words[0], "state"))
        put_state(p);
    else if (is(words[0], "more"))
        put_more(p);
    else
        call_with_bytes(p, words[0], words[1]);
}

/* Takes in what was read, and answers each line that is whole. */
static bool feed(struct player *p, const char *text, size_t length)
{
    size_t i;

    for (i = 0; i < length; i++) {
        if (text[i] != '\n') {
            if (p->line_length < sizeof p->line)
                p->line[p->line_length++] = text[i];
            continue;
        }
        answer_line(p);
        p->line_length = 0;
        if (sizeof p->out - p->out_length < LONGEST_ANSWER && !flush(p))
            return false;
    }
    return flush(p);
}

int main(void)
{
    static struct player p;
    static char text[1 << 16];
    ssize_t count;

    plain_power_on(&p.unit, 64);
    while ((count = read(STDIN_FILENO, text, sizeof text)) > 0) {
        if (!feed(&p, text, (size_t)count)) {
            fputs("play: standard output is closed\n", stderr);
            return 1;
        }
    }
    /* A last line without a newline counts. */
    answer_line(&p);
    return flush(&p) ? 0 : 1;
}
