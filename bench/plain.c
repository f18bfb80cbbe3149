/* The port's rules, in document 01's order, with Interrupt-IN behind Bulk-IN. */
#include "plain.h"

#include <stdbool.h>
#include <string.h>

#define BULK_OUT 0x01
#define BULK_IN 0x82
#define INTERRUPT_IN 0x83

/* The first byte of an Interrupt-IN packet: a service request's, or with a tag that of a READ_STATUS_BYTE. */
#define NOTIFY_SERVICE 0x81
#define NOTIFY_STATUS 0x80
#define ASKS_SERVICE 0x40 /* bit 6 of a status byte */

/* Statuses of the class requests. */
#define SUCCESS 0x01
#define PENDING 0x02
#define INTERRUPT_IN_BUSY 0x20
#define FAILED 0x80
#define TRANSFER_NOT_IN_PROGRESS 0x81
#define SPLIT_NOT_IN_PROGRESS 0x82
#define SPLIT_IN_PROGRESS 0x83

static struct plain_answer refused(uint8_t number)
{
    struct plain_answer answer = {number, PLAIN_NOTHING, 0};
    return answer;
}

static struct plain_answer done(size_t length)
{
    struct plain_answer answer = {PLAIN_DONE, PLAIN_NOTHING, (uint16_t)length};
    return answer;
}

static uint16_t get16(const uint8_t *p)
{
    return (uint16_t)(p[0] | p[1] << 8);
}

static uint32_t get32(const uint8_t *p)
{
    return (uint32_t)p[0] | (uint32_t)p[1] << 8 | (uint32_t)p[2] << 16 | (uint32_t)p[3] << 24;
}

/* A number of at most 16 bits in four bytes. */
static void put32(uint8_t *p, uint16_t n)
{
    p[0] = (uint8_t)n;
    p[1] = (uint8_t)(n >> 8);
    p[2] = 0;
    p[3] = 0;
}

/* When a unit is sound. No store is looked at. */

static bool out_sound(const struct plain_unit *u)
{
    if (u->out_halted > 1 || u->out_ready > 1 || u->out_eom > 1 || u->out_held > PLAIN_STORE)
        return false;
    if (u->out_left != 0)
        return !u->out_halted && !u->out_ready && u->out_tag != 0 && u->out_got != 0 &&
               u->out_got <= u->out_held && u->out_left <= PLAIN_STORE - u->out_held;
    if (u->out_eom || u->out_got != 0)
        return false;
    if (u->out_ready)
        return u->out_held != 0;
    return !u->out_halted || u->out_held == 0;
}

static bool in_sound(const struct plain_unit *u)
{
    bool not_asked = u->in_asked == 0 && u->in_term_enabled == 0 && u->in_term == 0;
    bool not_sending = u->in_left == 0 && u->in_sent == 0;

    if (u->in_halted > 1 || u->reply_at > PLAIN_STORE || u->reply_left > PLAIN_STORE - u->reply_at)
        return false;
    switch (u->in_phase) {
    case PLAIN_CLOSED:
        return u->in_tag == 0 && not_asked && not_sending;
    case PLAIN_ASKED:
        return u->in_tag != 0 && u->in_asked != 0 && u->in_asked <= PLAIN_STORE && u->in_term_enabled <= 1 &&
               (u->in_term_enabled || u->in_term == 0) && not_sending;
    case PLAIN_SENDING:
        return u->in_tag != 0 && not_asked && u->in_left <= u->reply_left && u->in_sent <= PLAIN_STORE &&
               u->in_left <= PLAIN_STORE - u->in_sent;
    case PLAIN_OWED:
        return u->in_tag != 0 && not_asked && not_sending;
    default:
        return false;
    }
}

static bool interrupt_sound(const struct plain_unit *u)
{
    if (u->interrupt_halted > 1)
        return false;
    if (u->notify1 == 0)
        return u->notify2 == 0 && !(u->status & ASKS_SERVICE);
    if (u->notify1 == NOTIFY_SERVICE)
        return u->notify2 & ASKS_SERVICE;
    return u->notify1 > NOTIFY_SERVICE && !(u->notify2 & ASKS_SERVICE);
}

static bool split_sound(const struct plain_unit *u)
{
    switch (u->split) {
    case PLAIN_NO_SPLIT:
        return u->split_count == 0 && u->in_phase != PLAIN_OWED;
    case PLAIN_ABORT_OUT:
        return u->split_count <= PLAIN_STORE && u->out_halted && u->in_phase != PLAIN_OWED;
    case PLAIN_ABORT_IN:
        return u->split_count <= PLAIN_STORE;
    case PLAIN_CLEAR:
        return u->split_count == 0 && u->out_halted && u->out_held == 0 && u->out_tag == 0 &&
               u->in_recent == 0 && u->reply_left == 0 &&
               (u->in_phase == PLAIN_CLOSED || u->in_phase == PLAIN_OWED);
    default:
        return false;
    }
}

static bool sound(const struct plain_unit *u)
{
    return (u->packet_size == 64 || u->packet_size == 512) && u->configured <= 1 && u->ren <= 1 &&
           u->remote <= PLAIN_RWLS && out_sound(u) && in_sound(u) && interrupt_sound(u) && split_sound(u);
}

/* What several calls do. */

static void start(struct plain_unit *u, uint16_t packet_size, uint8_t configured)
{
    memset(u, 0, sizeof *u);
    u->packet_size = packet_size;
    u->configured = configured;
}

static void ren_off(struct plain_unit *u)
{
    u->ren = 0;
    u->remote = PLAIN_LOCS;
}

static void drop_unfinished(struct plain_unit *u)
{
    u->out_left = 0;
    u->out_got = 0;
    u->out_eom = 0;
    if (!u->out_ready)
        u->out_held = 0;
}

static void halt_out(struct plain_unit *u)
{
    u->out_halted = 1;
    drop_unfinished(u);
}

static bool has_reply(const struct plain_unit *u)
{
    return u->reply_left != 0 || u->in_phase == PLAIN_SENDING;
}

static void drop_reply(struct plain_unit *u)
{
    u->reply_at = 0;
    u->reply_left = 0;
}

static void forget_request(struct plain_unit *u)
{
    u->in_asked = 0;
    u->in_term_enabled = 0;
    u->in_term = 0;
}

static void close_in(struct plain_unit *u)
{
    forget_request(u);
    u->in_phase = PLAIN_CLOSED;
    u->in_tag = 0;
    u->in_left = 0;
    u->in_sent = 0;
}

/* The open IN transfer, which keeps its tag, has only its empty packet to go. */
static void owe_packet(struct plain_unit *u)
{
    forget_request(u);
    u->in_phase = PLAIN_OWED;
    u->in_left = 0;
    u->in_sent = 0;
}

uint8_t plain_power_on(struct plain_unit *u, size_t packet_size)
{
    if (packet_size != 64 && packet_size != 512) {
        start(u, 64, 0);
        return PLAIN_WRONG_SIZE;
    }
    start(u, (uint16_t)packet_size, 0);
    return PLAIN_DONE;
}

/* Bulk-OUT. */

/* Do `length` bytes of a packet, with `left` data bytes to come, fit the transfer? Alignment bytes may be anything. */
static bool fits(size_t length, size_t left, bool full_packet)
{
    size_t due = (left + 3) & ~(size_t)3;

    return length == due || (length < due && full_packet);
}

/* Takes in data of the open transfer, and closes it with its last byte. */
static void receive(struct plain_unit *u, const uint8_t *data, size_t length)
{
    uint16_t count = length < u->out_left ? (uint16_t)length : u->out_left;

    memcpy(u->message + u->out_held, data, count);
    u->out_held += count;
    u->out_left -= count;
    u->out_got += count;
    if (u->out_left == 0) {
        u->out_ready = u->out_eom;
        u->out_eom = 0;
        u->out_got = 0;
    }
}

static uint8_t message_header(struct plain_unit *u, const uint8_t *p, size_t length)
{
    uint32_t size = get32(p + 4);

    if (p[3] != 0 || size == 0 || p[8] > 1 || (p[9] | p[10] | p[11]) != 0)
        return PLAIN_RESERVED;
    if (size > PLAIN_STORE - u->out_held)
        return PLAIN_TOO_MUCH;
    if (!fits(length - PLAIN_HEADER, size, length == u->packet_size))
        return PLAIN_WRONG_LENGTH;
    u->out_tag = p[1];
    u->out_eom = p[8];
    u->out_left = (uint16_t)size;
    if (u->ren && u->remote == PLAIN_LOCS)
        u->remote = PLAIN_REMS;
    else if (u->ren && u->remote == PLAIN_LWLS)
        u->remote = PLAIN_RWLS;
    receive(u, p + PLAIN_HEADER, length - PLAIN_HEADER);
    return PLAIN_DONE;
}

static uint8_t request_header(struct plain_unit *u, const uint8_t *p, size_t length)
{
    uint32_t size = get32(p + 4);

    if (p[3] != 0 || size == 0 || (p[8] & ~2) != 0 || (p[10] | p[11]) != 0)
        return PLAIN_RESERVED;
    if (u->in_phase != PLAIN_CLOSED || u->out_held != 0)
        return PLAIN_OUT_OF_TURN;
    if (length != PLAIN_HEADER)
        return PLAIN_WRONG_LENGTH;
    u->out_tag = p[1];
    u->in_recent = p[1];
    u->in_tag = p[1];
    u->in_phase = PLAIN_ASKED;
    u->in_asked = size < PLAIN_STORE ? (uint16_t)size : PLAIN_STORE;
    u->in_term_enabled = p[8] >> 1;
    u->in_term = u->in_term_enabled ? p[9] : 0;
    return PLAIN_DONE;
}

static uint8_t trigger_header(struct plain_unit *u, const uint8_t *p, size_t length)
{
    if (p[3] != 0 || get32(p + 4) != 0 || get32(p + 8) != 0)
        return PLAIN_RESERVED;
    if (u->out_held != 0)
        return PLAIN_OUT_OF_TURN;
    if (length != PLAIN_HEADER)
        return PLAIN_WRONG_LENGTH;
    u->out_tag = p[1];
    return PLAIN_DONE;
}

static uint8_t header(struct plain_unit *u, const uint8_t *p, size_t length, uint8_t *tells)
{
    if ((length & 3) != 0)
        return PLAIN_NOT_IN_FOURS;
    if (length < PLAIN_HEADER)
        return PLAIN_SHORT_HEADER;
    if (p[1] == 0 || p[2] != 255 - p[1])
        return PLAIN_BAD_TAG;
    switch (p[0]) {
    case 1:
        return message_header(u, p, length);
    case 2:
        return request_header(u, p, length);
    case 128:
        *tells = PLAIN_TRIGGER;
        return trigger_header(u, p, length);
    default:
        return PLAIN_BAD_MSGID;
    }
}

static uint8_t continuing(struct plain_unit *u, const uint8_t *p, size_t length)
{
    if ((length & 3) != 0)
        return PLAIN_NOT_IN_FOURS;
    if (!fits(length, u->out_left, length == u->packet_size))
        return PLAIN_WRONG_LENGTH;
    receive(u, p, length);
    return PLAIN_DONE;
}

struct plain_answer plain_packet(struct plain_unit *u, const uint8_t *packet, size_t length)
{
    struct plain_answer answer = done(0);

    if (!sound(u))
        return refused(PLAIN_UNSOUND);
    if (!u->configured)
        return refused(PLAIN_NOT_CONFIGURED);
    if (length > u->packet_size)
        return refused(PLAIN_WRONG_SIZE);
    if (u->out_halted)
        return refused(PLAIN_HALTED);
    if (u->out_ready)
        return refused(PLAIN_WAIT);
    if (u->out_left != 0)
        answer.number = continuing(u, packet, length);
    else if (length != 0)
        answer.number = header(u, packet, length, &answer.tells);
    if (answer.number != PLAIN_DONE) {
        halt_out(u);
        answer.tells = PLAIN_NOTHING;
    }
    return answer;
}

/* Bulk-IN. */

/* Fixes N and writes the header. */
static void begin(struct plain_unit *u, uint8_t *p)
{
    const uint8_t *data = u->reply + u->reply_at;
    uint16_t count = u->in_asked < u->reply_left ? u->in_asked : u->reply_left;
    uint8_t attributes = 0;
    uint16_t i;

    if (u->in_term_enabled) {
        for (i = 0; i < count; i++) {
            if (data[i] == u->in_term) {
                count = i + 1;
                attributes = 2;
                break;
            }
        }
    }
    if (count == u->reply_left)
        attributes |= 1;
    p[0] = 2;
    p[1] = u->in_tag;
    p[2] = (uint8_t)~u->in_tag;
    p[3] = 0;
    put32(p + 4, count);
    p[8] = attributes;
    p[9] = 0;
    p[10] = 0;
    p[11] = 0;
    forget_request(u);
    u->in_phase = PLAIN_SENDING;
    u->in_left = count;
}

struct plain_answer plain_poll(struct plain_unit *u, uint8_t *buffer, size_t room)
{
    uint16_t length = 0;
    uint16_t count;

    if (!sound(u))
        return refused(PLAIN_UNSOUND);
    if (!u->configured)
        return refused(PLAIN_NOT_CONFIGURED);
    if (room < u->packet_size)
        return refused(PLAIN_WRONG_SIZE);
    if (u->in_halted)
        return refused(PLAIN_HALTED);
    if (u->in_phase == PLAIN_OWED) {
        close_in(u);
        return done(0);
    }
    if (u->in_phase == PLAIN_CLOSED || !has_reply(u))
        return refused(PLAIN_WAIT);
    if (u->in_phase == PLAIN_ASKED) {
        begin(u, buffer);
        length = PLAIN_HEADER;
    }
    count = u->packet_size - length;
    if (count > u->in_left)
        count = u->in_left;
    memcpy(buffer + length, u->reply + u->reply_at, count);
    length += count;
    u->reply_at += count;
    u->reply_left -= count;
    u->in_left -= count;
    u->in_sent += count;
    /* With all of the reply gone, closing the transfer leaves none stored. */
    if (length < u->packet_size)
        close_in(u);
    return done(length);
}

/* Interrupt-IN. */

/* With no packet waiting: a service request becomes one, and bit 6 goes. */
static void queue_service(struct plain_unit *u)
{
    if (!(u->status & ASKS_SERVICE))
        return;
    u->notify1 = NOTIFY_SERVICE;
    u->notify2 = u->status;
    u->status &= (uint8_t)~ASKS_SERVICE;
}

struct plain_answer plain_interrupt_poll(struct plain_unit *u, uint8_t *buffer, size_t room)
{
    if (!sound(u))
        return refused(PLAIN_UNSOUND);
    if (!u->configured)
        return refused(PLAIN_NOT_CONFIGURED);
    if (room < PLAIN_NOTIFY)
        return refused(PLAIN_WRONG_SIZE);
    if (u->interrupt_halted)
        return refused(PLAIN_HALTED);
    if (u->notify1 == 0)
        return refused(PLAIN_WAIT);
    buffer[0] = u->notify1;
    buffer[1] = u->notify2;
    u->notify1 = 0;
    u->notify2 = 0;
    queue_service(u);
    return done(PLAIN_NOTIFY);
}

/* The thermostat's calls. */

struct plain_answer plain_take(struct plain_unit *u, uint8_t *buffer, size_t room)
{
    uint16_t length = u->out_held;

    if (!sound(u))
        return refused(PLAIN_UNSOUND);
    if (!u->configured)
        return refused(PLAIN_NOT_CONFIGURED);
    if (!u->out_ready)
        return refused(PLAIN_NOT_NOW);
    if (room < length)
        return refused(PLAIN_WRONG_SIZE);
    memcpy(buffer, u->message, length);
    u->out_ready = 0;
    u->out_held = 0;
    return done(length);
}

uint8_t plain_offer(struct plain_unit *u, const uint8_t *reply, size_t length)
{
    if (!sound(u))
        return PLAIN_UNSOUND;
    if (!u->configured)
        return PLAIN_NOT_CONFIGURED;
    if (length == 0 || length > PLAIN_STORE)
        return PLAIN_WRONG_SIZE;
    if (has_reply(u) || u->split == PLAIN_CLEAR)
        return PLAIN_NOT_NOW;
    memcpy(u->reply, reply, length);
    u->reply_at = 0;
    u->reply_left = (uint16_t)length;
    return PLAIN_DONE;
}

uint8_t plain_set_status(struct plain_unit *u, uint8_t status)
{
    if (!sound(u))
        return PLAIN_UNSOUND;
    if (!u->configured)
        return PLAIN_NOT_CONFIGURED;
    u->status = status;
    if (u->notify1 == 0)
        queue_service(u);
    return PLAIN_DONE;
}

uint8_t plain_return_to_local(struct plain_unit *u)
{
    if (!sound(u))
        return PLAIN_UNSOUND;
    if (!u->configured)
        return PLAIN_NOT_CONFIGURED;
    if (u->remote == PLAIN_REMS)
        u->remote = PLAIN_LOCS;
    return PLAIN_DONE;
}

/* The bus. */

uint8_t plain_bus_reset(struct plain_unit *u)
{
    if (!sound(u))
        return PLAIN_UNSOUND;
    start(u, u->packet_size, 0);
    return PLAIN_DONE;
}

uint8_t plain_suspend(struct plain_unit *u)
{
    if (!sound(u))
        return PLAIN_UNSOUND;
    ren_off(u);
    return PLAIN_DONE;
}

/* Setup packets. */

struct request {
    uint8_t number; /* bRequest */
    uint16_t value;
    uint16_t index;
    uint16_t length;
};

static struct plain_answer no_row(void)
{
    return refused(PLAIN_NO_ROW);
}

static struct plain_answer status_only(uint8_t *buffer, uint8_t status)
{
    buffer[0] = status;
    return done(1);
}

static struct plain_answer initiate_abort(struct plain_unit *u, bool out, uint16_t asked, uint8_t *buffer)
{
    bool open = out ? u->out_left != 0 : u->in_phase != PLAIN_CLOSED;
    uint8_t tag = out ? u->out_tag : open ? u->in_tag : u->in_recent;

    buffer[1] = tag;
    if (u->split != PLAIN_NO_SPLIT) {
        buffer[0] = SPLIT_IN_PROGRESS;
    } else if (!open) {
        buffer[0] = FAILED;
    } else if (tag != asked) {
        buffer[0] = TRANSFER_NOT_IN_PROGRESS;
    } else if (out) {
        buffer[0] = SUCCESS;
        u->split = PLAIN_ABORT_OUT;
        u->split_count = u->out_got;
        halt_out(u);
    } else {
        buffer[0] = SUCCESS;
        u->split = PLAIN_ABORT_IN;
        u->split_count = u->in_sent;
        drop_reply(u);
        owe_packet(u);
    }
    return done(2);
}

/* The status and D0 of a CHECK. With SUCCESS the split ends. In abort-OUT no packet is owed. */
static void check(struct plain_unit *u, uint8_t split, uint8_t *buffer)
{
    buffer[1] = 0;
    if (u->split != split) {
        buffer[0] = SPLIT_NOT_IN_PROGRESS;
    } else if (u->in_phase == PLAIN_OWED) {
        buffer[0] = PENDING;
        buffer[1] = 1;
    } else {
        buffer[0] = SUCCESS;
        u->split = PLAIN_NO_SPLIT;
        u->split_count = 0;
    }
}

static struct plain_answer check_abort(struct plain_unit *u, uint8_t split, uint8_t *buffer)
{
    uint16_t count = u->split_count;

    check(u, split, buffer);
    buffer[2] = 0;
    buffer[3] = 0;
    put32(buffer + 4, buffer[0] == SUCCESS ? count : 0);
    return done(8);
}

static struct plain_answer initiate_clear(struct plain_unit *u, uint8_t *buffer)
{
    if (u->split == PLAIN_CLEAR)
        return status_only(buffer, SPLIT_IN_PROGRESS);
    u->split = PLAIN_CLEAR;
    u->split_count = 0;
    u->out_ready = 0;
    halt_out(u);
    drop_reply(u);
    u->out_tag = 0;
    u->in_recent = 0;
    if (u->in_phase != PLAIN_CLOSED)
        owe_packet(u);
    return status_only(buffer, SUCCESS);
}

static struct plain_answer capabilities(uint8_t *buffer)
{
    static const uint8_t text[PLAIN_CONTROL_BUFFER] = {0x01, 0, 0, 0x01, 0x04, 0x01, 0,    0,
                                                       0,    0, 0, 0,    0,    0x01, 0x03, 0x07};

    memcpy(buffer, text, sizeof text);
    return done(sizeof text);
}

static struct plain_answer read_status_byte(struct plain_unit *u, uint8_t tag, uint8_t *buffer)
{
    buffer[0] = u->notify1 == 0 ? SUCCESS : INTERRUPT_IN_BUSY;
    buffer[1] = tag;
    buffer[2] = 0;
    if (u->notify1 == 0) {
        u->notify1 = NOTIFY_STATUS | tag;
        u->notify2 = u->status;
    }
    return done(3);
}

static bool is_endpoint(uint16_t index)
{
    return index == BULK_OUT || index == BULK_IN || index == INTERRUPT_IN;
}

static void clear_halt(struct plain_unit *u, uint16_t endpoint)
{
    if (endpoint == INTERRUPT_IN) {
        u->interrupt_halted = 0;
        return;
    }
    if (endpoint == BULK_OUT) {
        drop_unfinished(u);
        if (u->split != PLAIN_CLEAR && u->split != PLAIN_ABORT_OUT)
            u->out_halted = 0;
        return;
    }
    u->in_halted = 0;
    if (u->in_phase == PLAIN_ASKED || u->in_phase == PLAIN_SENDING)
        drop_reply(u);
    close_in(u);
}

static void set_halt(struct plain_unit *u, uint16_t endpoint)
{
    if (endpoint == BULK_OUT)
        halt_out(u);
    else if (endpoint == BULK_IN)
        u->in_halted = 1;
    else
        u->interrupt_halted = 1;
}

static void local_lockout(struct plain_unit *u)
{
    if (!u->ren)
        return;
    if (u->remote == PLAIN_LOCS)
        u->remote = PLAIN_LWLS;
    else if (u->remote == PLAIN_REMS)
        u->remote = PLAIN_RWLS;
}

static void go_to_local(struct plain_unit *u)
{
    if (u->remote == PLAIN_REMS)
        u->remote = PLAIN_LOCS;
    else if (u->remote == PLAIN_RWLS)
        u->remote = PLAIN_LWLS;
}

/* Class requests to the interface. */
static struct plain_answer interface_request(struct plain_unit *u, const struct request *r, uint8_t *buffer)
{
    struct plain_answer answer;

    if (r->index != 0)
        return no_row();
    switch (r->number) {
    case 5: /* INITIATE_CLEAR */
        if (r->value != 0 || r->length != 1)
            return no_row();
        return initiate_clear(u, buffer);
    case 6: /* CHECK_CLEAR_STATUS */
        if (r->value != 0 || r->length != 2)
            return no_row();
        check(u, PLAIN_CLEAR, buffer);
        return done(2);
    case 7: /* GET_CAPABILITIES */
        if (r->value != 0 || r->length != PLAIN_CONTROL_BUFFER)
            return no_row();
        return capabilities(buffer);
    case 64: /* INDICATOR_PULSE */
        if (r->value != 0 || r->length != 1)
            return no_row();
        answer = status_only(buffer, SUCCESS);
        answer.tells = PLAIN_PULSE;
        return answer;
    case 128: /* READ_STATUS_BYTE */
        if (r->value < 2 || r->value > 127 || r->length != 3)
            return no_row();
        return read_status_byte(u, (uint8_t)r->value, buffer);
    case 160: /* REN_CONTROL */
        if (r->value > 1 || r->length != 1)
            return no_row();
        if (r->value == 1)
            u->ren = 1;
        else
            ren_off(u);
        return status_only(buffer, SUCCESS);
    case 161: /* GO_TO_LOCAL */
        if (r->value != 0 || r->length != 1)
            return no_row();
        go_to_local(u);
        return status_only(buffer, SUCCESS);
    case 162: /* LOCAL_LOCKOUT */
        if (r->value != 0 || r->length != 1)
            return no_row();
        local_lockout(u);
        return status_only(buffer, SUCCESS);
    default:
        return no_row();
    }
}

/* Class requests to an endpoint: 1 and 2 are of Bulk-OUT, 3 and 4 of Bulk-IN. */
static struct plain_answer endpoint_request(struct plain_unit *u, const struct request *r, uint8_t *buffer)
{
    bool out = r->number <= 2;

    if (r->index != (out ? BULK_OUT : BULK_IN))
        return no_row();
    switch (r->number) {
    case 1: /* INITIATE_ABORT_BULK_OUT */
    case 3: /* INITIATE_ABORT_BULK_IN */
        if (r->value == 0 || r->value > 255 || r->length != 2)
            return no_row();
        return initiate_abort(u, out, r->value, buffer);
    case 2: /* CHECK_ABORT_BULK_OUT_STATUS */
    case 4: /* CHECK_ABORT_BULK_IN_STATUS */
        if (r->value != 0 || r->length != 8)
            return no_row();
        return check_abort(u, out ? PLAIN_ABORT_OUT : PLAIN_ABORT_IN, buffer);
    default:
        return no_row();
    }
}

/* CLEAR_FEATURE and SET_FEATURE, of an endpoint's halt. */
static struct plain_answer feature_request(struct plain_unit *u, const struct request *r)
{
    if (r->value != 0 || !is_endpoint(r->index) || r->length != 0)
        return no_row();
    switch (r->number) {
    case 1:
        clear_halt(u, r->index);
        return done(0);
    case 3:
        set_halt(u, r->index);
        return done(0);
    default:
        return no_row();
    }
}

static struct plain_answer get_status(const struct plain_unit *u, const struct request *r, uint8_t *buffer)
{
    if (r->number != 0 || r->value != 0 || !is_endpoint(r->index) || r->length != 2)
        return no_row();
    buffer[0] = r->index == BULK_OUT ? u->out_halted : r->index == BULK_IN ? u->in_halted : u->interrupt_halted;
    buffer[1] = 0;
    return done(2);
}

static struct plain_answer set_configuration(struct plain_unit *u, const struct request *r)
{
    if (r->number != 9 || r->value > 1 || r->index != 0 || r->length != 0)
        return no_row();
    start(u, u->packet_size, (uint8_t)r->value);
    return done(0);
}

struct plain_answer plain_setup(struct plain_unit *u, const uint8_t *packet, size_t length,
                                uint8_t *buffer, size_t room)
{
    struct request r;

    if (!sound(u))
        return refused(PLAIN_UNSOUND);
    if (length != 8 || room < PLAIN_CONTROL_BUFFER)
        return refused(PLAIN_WRONG_SIZE);
    r.number = packet[1];
    r.value = get16(packet + 2);
    r.index = get16(packet + 4);
    r.length = get16(packet + 6);
    if (packet[0] == 0x00)
        return set_configuration(u, &r);
    if (!u->configured)
        return no_row();
    switch (packet[0]) {
    case 0xA1:
        return interface_request(u, &r, buffer);
    case 0xA2:
        return endpoint_request(u, &r, buffer);
    case 0x02:
        return feature_request(u, &r);
    case 0x82:
        return get_status(u, &r, buffer);
    default:
        return no_row();
    }
}
