/* The endpoints of the simulated controller that works ahead: each has a memory for packets (a FIFO) between the firmware and the wire, and answers the
   host from it by itself. Bulk-OUT has room for two packets, as many have: a second one can be acknowledged while the firmware is at the first. */
#ifndef FIFO_H
#define FIFO_H

#include "controller.h"

/* The firmware's side. */

/* The oldest packet that has been acknowledged, or NULL. It stays until it is done with. */
const uint8_t *fifo_received(size_t *length);
void fifo_done(void);

/* No packet more is acknowledged, while it is held. */
void fifo_hold(bool held);

/* A packet for the host's next poll. There is room for one. */
void fifo_load(enum endpoint endpoint, const uint8_t *bytes, size_t length);
bool fifo_is_loaded(enum endpoint endpoint);

/* What is loaded and has not gone is taken out again: the endpoint answers NAK. */
void fifo_unload(enum endpoint endpoint);

/* Whether a packet has gone since this was asked last. */
bool fifo_has_gone(enum endpoint endpoint);

/* While it is set, the endpoint answers STALL. */
void fifo_stall(enum endpoint endpoint, bool stalled);

/* The controller's own. */

void fifo_start(void);
enum handshake fifo_receives(const uint8_t *packet, size_t length);
enum handshake fifo_sends(enum endpoint endpoint, uint8_t *bytes, size_t *length);

#endif
