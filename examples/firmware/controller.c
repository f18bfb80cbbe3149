#include "controller.h"

#include "fifo.h"

#include <string.h>

static struct {
    enum controller_kind kind;
    size_t size;
    void (*routine)(enum controller_event event);
    uint8_t packet[CONTROLLER_LARGEST];
    size_t length;
    struct wire_answer answer;
    bool masked;
    unsigned raised; /* events that wait for the mask to go, a bit each */
    bool reattached;
} controller;

/* Packets that arrive at the next mask, and how the last ones were answered. */
static struct {
    unsigned count;
    struct {
        uint8_t bytes[CONTROLLER_LARGEST];
        size_t length;
    } packets[2];
    enum handshake answers[2];
} arriving;

void controller_start(enum controller_kind kind, size_t packet, void (*routine)(enum controller_event event))
{
    memset(&controller, 0, sizeof controller);
    controller.kind = kind;
    controller.size = packet;
    controller.routine = routine;
    fifo_start();
}

size_t controller_packet_size(void)
{
    return controller.size;
}

static void interrupt(enum controller_event event)
{
    if (controller.masked)
        controller.raised |= 1u << event;
    else
        controller.routine(event);
}

void controller_mask(void)
{
    unsigned i;

    controller.masked = true;
    for (i = 0; i < arriving.count; i++)
        arriving.answers[i] = wire_event(EVENT_BULK_OUT, arriving.packets[i].bytes, arriving.packets[i].length).handshake;
    arriving.count = 0;
}

void controller_unmask(void)
{
    unsigned raised = controller.raised;
    unsigned event;

    controller.masked = false;
    controller.raised = 0;
    for (event = 0; event <= EVENT_LOOP; event++)
        if (raised >> event & 1)
            controller.routine((enum controller_event)event);
}

void controller_pend(void)
{
    interrupt(EVENT_LOOP);
}

const uint8_t *controller_packet(size_t *length)
{
    *length = controller.length;
    return controller.packet;
}

void controller_answer(enum handshake handshake, const uint8_t *bytes, size_t length)
{
    controller.answer.handshake = handshake;
    controller.answer.length = length;
    if (length != 0)
        memcpy(controller.answer.bytes, bytes, length);
}

void controller_reattach(void)
{
    controller.reattached = true;
}

/* The firmware is asked. What it has not answered, the controller answers NAK; so it does with what comes while it waits for an answer. */
static struct wire_answer ask(enum controller_event event, const uint8_t *packet, size_t length)
{
    static const struct wire_answer nak = {.handshake = HANDSHAKE_NAK};

    if (controller.raised >> event & 1)
        return nak;
    controller.length = length;
    if (length != 0)
        memcpy(controller.packet, packet, length);
    controller.answer.handshake = HANDSHAKE_NAK;
    controller.answer.length = 0;
    interrupt(event);
    return controller.answer;
}

/* The controller answers by itself, and tells the firmware of what has come or gone. */
static struct wire_answer work_ahead(enum controller_event event, const uint8_t *packet, size_t length)
{
    struct wire_answer answer = {.handshake = HANDSHAKE_NAK};

    if (event == EVENT_BULK_OUT)
        answer.handshake = fifo_receives(packet, length);
    else
        answer.handshake = fifo_sends(event == EVENT_BULK_IN ? BULK_IN : INTERRUPT_IN, answer.bytes, &answer.length);
    if (answer.handshake == HANDSHAKE_ACK)
        interrupt(event);
    return answer;
}

struct wire_answer wire_event(enum controller_event event, const uint8_t *packet, size_t length)
{
    bool is_of_fifo = event == EVENT_BULK_OUT || event == EVENT_BULK_IN || event == EVENT_INTERRUPT_IN;

    return controller.kind == CONTROLLER_WORKS_AHEAD && is_of_fifo ? work_ahead(event, packet, length) : ask(event, packet, length);
}

void wire_arrives_while_masked(const uint8_t *packet, size_t length)
{
    memcpy(arriving.packets[arriving.count].bytes, packet, length);
    arriving.packets[arriving.count++].length = length;
}

/* A controller that asks has the answer to the first one only now. */
enum handshake wire_arrived(unsigned which)
{
    return which == 0 && controller.kind == CONTROLLER_ASKS ? controller.answer.handshake : arriving.answers[which];
}

bool wire_reattached(void)
{
    bool was = controller.reattached;

    controller.reattached = false;
    return was;
}
