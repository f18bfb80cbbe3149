/* A USB device controller, simulated: what firmware finds and does at its registers, and behind them the wire with the host on it.

   It is of one of two kinds. The one asks the firmware at each packet, and gives the host the answer that the firmware has for it: what the port's
   calls are made for. The other works ahead, as those on chips do: it acknowledges a packet that comes before the firmware has seen it, and has the
   packets that it sends loaded before the host polls. fifo.h has what firmware does there. */
#ifndef CONTROLLER_H
#define CONTROLLER_H

#include <stdbool.h>
#include <stddef.h>
#include <stdint.h>

enum controller_kind { CONTROLLER_ASKS, CONTROLLER_WORKS_AHEAD };

#define CONTROLLER_LARGEST 512u /* the larger of the two packet sizes */

/* How an endpoint answers the host. */
enum handshake { HANDSHAKE_ACK, HANDSHAKE_NAK, HANDSHAKE_STALL };

enum endpoint { BULK_OUT, BULK_IN, INTERRUPT_IN, ENDPOINTS };

/* What the controller interrupts for. Where it asks: a packet has come, or the host polls, and an answer is wanted. Where it works ahead: a packet
   has been acknowledged, or one that was loaded has gone. A setup packet wants its answer from both. */
enum controller_event {
    EVENT_BULK_IN,
    EVENT_INTERRUPT_IN,
    EVENT_BULK_OUT,
    EVENT_SETUP,
    EVENT_RESET,
    EVENT_SUSPEND,
    EVENT_LOOP /* the main loop has changed something, and has asked for the interrupt */
};

/* The firmware's side. */

/* Switches it on, with the packet size of its bulk endpoints and the interrupt routine. The routine never runs while it is masked. */
void controller_start(enum controller_kind kind, size_t packet, void (*routine)(enum controller_event event));

size_t controller_packet_size(void);

/* On an instrument both are barriers for the compiler too: what the interrupt routine wrote is read anew behind them. */
void controller_mask(void);
void controller_unmask(void);

/* Has the interrupt routine run with EVENT_LOOP, as soon as it is not masked. */
void controller_pend(void);

/* The packet that came, of EVENT_SETUP and, where the controller asks, of EVENT_BULK_OUT. */
const uint8_t *controller_packet(size_t *length);

/* Answers the event: with bytes on the way to the host, where it takes some. Where the controller works ahead, only EVENT_SETUP has an answer. */
void controller_answer(enum handshake handshake, const uint8_t *bytes, size_t length);

/* Leaves the bus and comes back, so that the host enumerates the device anew. */
void controller_reattach(void);

/* The host's side: the wire. */

struct wire_answer {
    enum handshake handshake;
    size_t length;
    uint8_t bytes[CONTROLLER_LARGEST];
};

struct wire_answer wire_event(enum controller_event event, const uint8_t *packet, size_t length);

/* A Bulk-OUT packet that arrives just when the firmware has the interrupt masked next, or behind one that does; and how the first and the second of
   them were answered. */
void wire_arrives_while_masked(const uint8_t *packet, size_t length);
enum handshake wire_arrived(unsigned which);

/* Whether the device left the bus since this was asked last. */
bool wire_reattached(void);

#endif
