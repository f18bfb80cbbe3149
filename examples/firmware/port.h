/* The port in the firmware: the interrupt routine owns the unit, and the main loop reaches it by the functions here. */
#ifndef PORT_H
#define PORT_H

#include "controller.h"
#include "tewennos.h"

/* Powers the unit on, with the controller's packet size. */
void port_start(void);

/* The interrupt routine's calls: how the host is answered, and with which bytes. */

/* False: the packet is not the port's, and nothing was done. */
bool port_setup(const uint8_t packet[8], enum handshake *handshake, uint8_t *bytes, size_t *length);
enum handshake port_bulk_out(const uint8_t *packet, size_t length);
enum handshake port_bulk_in(uint8_t *bytes, size_t *length);
enum handshake port_interrupt_in(uint8_t *bytes, size_t *length);
void port_reset(void);
void port_suspend(void);

/* For a controller that works ahead: what a poll would be answered. The unit does not hear of it. */
enum handshake port_next(enum endpoint endpoint, uint8_t *bytes, size_t *length);

/* The same: whether each packet of the endpoint is answered STALL now, and whether one of Bulk-OUT is answered NAK. */
bool port_is_stalled(enum endpoint endpoint);
bool port_message_waits(void);

bool port_is_configured(void);

/* The main loop's calls. Each masks the controller's interrupt while it is in the library: a unit has one caller at a time. */

/* A message, where one is ready: its length, and the generation that it belongs to; or 0. */
size_t port_take(uint8_t *message, size_t room, uint32_t *generation);

enum port_offer {
    PORT_OFFERED,
    PORT_NOT_YET, /* the host has not asked for it: keep it, and try again */
    PORT_STALE    /* the host has given the question up: throw the answer away */
};

/* Offers the answer to a message of that generation. */
enum port_offer port_offer(uint32_t generation, const uint8_t *reply, size_t length);

/* The status byte, but for its bit 6, which is the port's own. With `asks` the host is told on Interrupt-IN. False: the device is not
   configured, and nothing was set. */
bool port_set_status(uint8_t bits, bool asks);

/* The front panel's key. */
void port_panel(void);

/* What the port told since this was asked last. */
bool port_triggered(void);
bool port_pulsed(void);

/* Whether the port began anew since this was asked last, by SET_CONFIGURATION or a reset; and whether a service request went with it, which no host had
   fetched. */
bool port_began_anew(bool *lost_request);

/* For the scene in which a stray write meets the unit. */
struct tmc_unit *port_unit(void);

#endif
