#include "transfers.h"

#include "controller.h"

#include <stdlib.h>
#include <string.h>

struct transfer {
    struct transfer *next; /* the one that came behind it, on whatever endpoint */
    uint32_t number;
    enum endpoint endpoint;
    uint32_t flags;
    size_t length; /* that the host asks for, or sends */
    size_t room;   /* of `bytes` */
    size_t at;     /* bytes that have gone, or come */
    uint8_t bytes[];
};

#define MEMORY (4u * TRANSFER_LONGEST) /* bytes of all that wait */

static struct {
    struct transfer *first;
    unsigned count;
    size_t bytes;
} waiting;

static void give_back(uint32_t number, enum usbip_end end, size_t length, const uint8_t *bytes, bool is_in)
{
    uint8_t whole[USBIP_HEAD + TRANSFER_LONGEST_IN];
    size_t shown = is_in ? length : 0;

    usbip_put_submitted(whole, number, end, length);
    if (shown != 0)
        memcpy(whole + USBIP_HEAD, bytes, shown);
    transfers_return(whole, USBIP_HEAD + shown);
}

/* The queue. */

static void take_out(struct transfer *transfer)
{
    struct transfer **at = &waiting.first;

    while (*at != transfer)
        at = &(*at)->next;
    *at = transfer->next;
    waiting.count--;
    waiting.bytes -= transfer->room;
    free(transfer);
}

static void end(struct transfer *transfer, enum usbip_end how)
{
    give_back(transfer->number, how, transfer->at, transfer->bytes, transfer->endpoint != BULK_OUT);
    take_out(transfer);
}

static struct transfer *oldest_of(enum endpoint endpoint)
{
    struct transfer *transfer = waiting.first;

    while (transfer != NULL && transfer->endpoint != endpoint)
        transfer = transfer->next;
    return transfer;
}

void transfers_drop(void)
{
    while (waiting.first != NULL)
        take_out(waiting.first);
}

/* On the wire. */

static size_t packet_of(enum endpoint endpoint)
{
    return endpoint == INTERRUPT_IN ? 2 : controller_packet_size();
}

/* The last packet has gone. One that the transfer fills is the last, unless the host wants an empty one behind it. */
static bool is_sent(const struct transfer *transfer, size_t sent)
{
    bool full = sent == packet_of(BULK_OUT);

    return transfer->at == transfer->length && !(full && (transfer->flags & USBIP_ZERO_PACKET));
}

/* A packet on Bulk-OUT. False: NAK, and it waits. */
static bool send(struct transfer *transfer)
{
    size_t rest = transfer->length - transfer->at;
    size_t size = rest < packet_of(BULK_OUT) ? rest : packet_of(BULK_OUT);

    switch (wire_event(EVENT_BULK_OUT, transfer->bytes + transfer->at, size).handshake) {
    case HANDSHAKE_NAK:
        return false;
    case HANDSHAKE_STALL:
        end(transfer, USBIP_STALLED);
        return true;
    case HANDSHAKE_ACK:
        break;
    }
    transfer->at += size;
    if (is_sent(transfer, size))
        end(transfer, USBIP_DONE);
    return true;
}

static enum usbip_end end_of(const struct transfer *transfer, bool overflows)
{
    if (overflows)
        return USBIP_OVERFLOW;
    return transfer->at < transfer->length && (transfer->flags & USBIP_SHORT_IS_ERROR) ? USBIP_TOO_SHORT : USBIP_DONE;
}

/* A poll of Bulk-IN or Interrupt-IN. False: NAK, and it waits. A packet with more bytes than the host has room for is an error of the host's, and gone. */
static bool poll(struct transfer *transfer)
{
    struct wire_answer answer = wire_event(transfer->endpoint == BULK_IN ? EVENT_BULK_IN : EVENT_INTERRUPT_IN, NULL, 0);
    size_t rest = transfer->room - transfer->at;
    bool overflows = answer.length > rest;
    size_t taken = overflows ? rest : answer.length;

    if (answer.handshake == HANDSHAKE_NAK)
        return false;
    if (answer.handshake == HANDSHAKE_STALL) {
        end(transfer, USBIP_STALLED);
        return true;
    }
    memcpy(transfer->bytes + transfer->at, answer.bytes, taken);
    transfer->at += taken;
    if (overflows || answer.length < packet_of(transfer->endpoint) || transfer->at == transfer->length)
        end(transfer, end_of(transfer, overflows));
    return true;
}

bool transfers_play(void)
{
    bool moved = false;
    enum endpoint endpoint;
    struct transfer *transfer;

    for (endpoint = BULK_OUT; endpoint < ENDPOINTS; endpoint++)
        while ((transfer = oldest_of(endpoint)) != NULL && (endpoint == BULK_OUT ? send(transfer) : poll(transfer)))
            moved = true;
    return moved;
}

/* What the host wants. */

/* The data stage goes with it: one to the host is cut to what the host asked for, and what a host sends there the device has no use for. */
static void control(const struct usbip_command *command)
{
    struct wire_answer answer = wire_event(EVENT_SETUP, command->setup, sizeof command->setup);
    size_t length = answer.length < command->length ? answer.length : command->length;

    if (answer.handshake != HANDSHAKE_ACK)
        give_back(command->number, USBIP_STALLED, 0, NULL, false);
    else if (command->is_in)
        give_back(command->number, USBIP_DONE, length, answer.bytes, true);
    else
        give_back(command->number, USBIP_DONE, command->length, NULL, false);
}

/* False: the device has no such endpoint. */
static bool find_endpoint(const struct usbip_command *command, enum endpoint *endpoint)
{
    static const struct {
        uint32_t number;
        bool is_in;
    } places[ENDPOINTS] = {[BULK_OUT] = {1, false}, [BULK_IN] = {2, true}, [INTERRUPT_IN] = {3, true}};

    for (*endpoint = BULK_OUT; *endpoint < ENDPOINTS; (*endpoint)++)
        if (places[*endpoint].number == command->endpoint && places[*endpoint].is_in == command->is_in)
            return true;
    return false;
}

static void queue(const struct usbip_command *command, enum endpoint endpoint, const uint8_t *bytes)
{
    size_t room = command->is_in && command->length > TRANSFER_LONGEST_IN ? TRANSFER_LONGEST_IN : command->length;
    struct transfer *transfer = waiting.count < TRANSFERS && waiting.bytes + room <= MEMORY ? calloc(1, sizeof *transfer + room) : NULL;
    struct transfer **last = &waiting.first;

    if (transfer == NULL) {
        give_back(command->number, USBIP_OUT_OF_MEMORY, 0, NULL, false);
        return;
    }
    transfer->number = command->number;
    transfer->endpoint = endpoint;
    transfer->flags = command->flags;
    transfer->length = command->length;
    transfer->room = room;
    if (!command->is_in && room != 0)
        memcpy(transfer->bytes, bytes, room);
    while (*last != NULL)
        last = &(*last)->next;
    *last = transfer;
    waiting.count++;
    waiting.bytes += room;
}

void transfers_submit(const struct usbip_command *command, const uint8_t *bytes)
{
    enum endpoint endpoint;

    if (command->endpoint == 0)
        control(command);
    else if (!find_endpoint(command, &endpoint))
        give_back(command->number, USBIP_NO_ANSWER, 0, NULL, false);
    else
        queue(command, endpoint, bytes);
}

/* One that has ended has been given back already, and the host has both. */
void transfers_unlink(const struct usbip_command *command)
{
    struct transfer *transfer = waiting.first;
    uint8_t head[USBIP_HEAD];

    while (transfer != NULL && transfer->number != command->unlinked)
        transfer = transfer->next;
    usbip_put_unlinked(head, command->number, transfer != NULL ? USBIP_UNLINKED : USBIP_DONE);
    if (transfer != NULL)
        take_out(transfer);
    transfers_return(head, sizeof head);
}
