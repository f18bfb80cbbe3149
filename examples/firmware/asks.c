#include "asks.h"

#include "port.h"
#include "standard.h"

void asks_interrupt(enum controller_event event)
{
    uint8_t bytes[CONTROLLER_LARGEST];
    enum handshake handshake;
    struct standard_answer answer;
    size_t length = 0;
    const uint8_t *packet;

    switch (event) {
    case EVENT_SETUP:
        answer = standard_answers(controller_packet(&length));
        controller_answer(answer.handshake, answer.bytes, answer.length);
        break;
    case EVENT_BULK_OUT:
        packet = controller_packet(&length);
        controller_answer(port_bulk_out(packet, length), NULL, 0);
        break;
    case EVENT_BULK_IN:
        handshake = port_bulk_in(bytes, &length);
        controller_answer(handshake, bytes, length);
        break;
    case EVENT_INTERRUPT_IN:
        handshake = port_interrupt_in(bytes, &length);
        controller_answer(handshake, bytes, length);
        break;
    case EVENT_RESET:
        port_reset();
        break;
    case EVENT_SUSPEND:
        port_suspend();
        break;
    case EVENT_LOOP: /* nothing is ready ahead, so nothing has to be made so */
        break;
    }
}
