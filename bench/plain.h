/* A USBTMC device port by the rules of document 01 and requests 1 and 2 of document 02, written by hand: the yardstick for the proved one. */
#ifndef PLAIN_H
#define PLAIN_H

#include <stddef.h>
#include <stdint.h>

#define PLAIN_STORE 1024u
#define PLAIN_HEADER 12u
#define PLAIN_CONTROL_BUFFER 24u
#define PLAIN_NOTIFY 2u /* bytes of an Interrupt-IN packet */

/* The numbers that a call is answered with. */
enum plain_number {
    PLAIN_DONE,
    PLAIN_UNSOUND,
    PLAIN_NOT_CONFIGURED,
    PLAIN_WRONG_SIZE,
    PLAIN_HALTED,
    PLAIN_WAIT,
    PLAIN_NOT_IN_FOURS,
    PLAIN_SHORT_HEADER,
    PLAIN_BAD_TAG,
    PLAIN_BAD_MSGID,
    PLAIN_RESERVED,
    PLAIN_WRONG_LENGTH,
    PLAIN_TOO_MUCH,
    PLAIN_OUT_OF_TURN,
    PLAIN_NO_ROW = 15, /* 14 is free */
    PLAIN_NOT_NOW
};

enum plain_tells { PLAIN_NOTHING, PLAIN_TRIGGER, PLAIN_PULSE };
enum plain_remote { PLAIN_LOCS, PLAIN_REMS, PLAIN_LWLS, PLAIN_RWLS };
enum plain_split { PLAIN_NO_SPLIT, PLAIN_ABORT_OUT, PLAIN_ABORT_IN, PLAIN_CLEAR };

/* How far an IN transfer is: closed; no packet of it gone; on its way; nothing but its empty packet to go. */
enum plain_phase { PLAIN_CLOSED, PLAIN_ASKED, PLAIN_SENDING, PLAIN_OWED };

/* Flags are 0 or 1, and what a transfer does not use in its phase is 0. */
struct plain_unit {
    uint8_t message[PLAIN_STORE];
    uint8_t reply[PLAIN_STORE];

    uint16_t packet_size;
    uint16_t split_count; /* of an abort: the data bytes of its transfer */
    uint8_t split;
    uint8_t remote;
    uint8_t configured;
    uint8_t ren;

    uint8_t out_halted;
    uint8_t out_ready; /* the message held is whole */
    uint8_t out_eom;   /* of the open transfer */
    uint8_t out_tag;   /* most recent; the open transfer's too */
    uint16_t out_held; /* bytes of the message */
    uint16_t out_left; /* data bytes to come: the transfer is open while there are some */
    uint16_t out_got;  /* data bytes of the open transfer */

    uint8_t in_halted;
    uint8_t in_phase;
    uint8_t in_tag; /* of the open transfer */
    uint8_t in_recent;
    uint8_t in_term_enabled;
    uint8_t in_term;
    uint16_t in_asked; /* at most what a store holds */
    uint16_t in_left;  /* data bytes of the transfer still to go */
    uint16_t in_sent;  /* and those that went */
    uint16_t reply_at; /* the first byte that has not gone */
    uint16_t reply_left;

    uint8_t status;  /* bit 6 on: a service request is kept, until the packet that waits is polled */
    uint8_t notify1; /* of the Interrupt-IN packet that waits: 0 where there is none */
    uint8_t notify2;
    uint8_t interrupt_halted;
};

/* length: the bytes written to the lent buffer; those past them stay as they were. */
struct plain_answer {
    uint8_t number;
    uint8_t tells;
    uint16_t length;
};

uint8_t plain_power_on(struct plain_unit *u, size_t packet_size);

struct plain_answer plain_setup(struct plain_unit *u, const uint8_t *packet, size_t length,
                                uint8_t *buffer, size_t room);
struct plain_answer plain_packet(struct plain_unit *u, const uint8_t *packet, size_t length);
struct plain_answer plain_poll(struct plain_unit *u, uint8_t *buffer, size_t room);
struct plain_answer plain_interrupt_poll(struct plain_unit *u, uint8_t *buffer, size_t room);

struct plain_answer plain_take(struct plain_unit *u, uint8_t *buffer, size_t room);
uint8_t plain_offer(struct plain_unit *u, const uint8_t *reply, size_t length);
uint8_t plain_set_status(struct plain_unit *u, uint8_t status);
uint8_t plain_return_to_local(struct plain_unit *u);

uint8_t plain_bus_reset(struct plain_unit *u);
uint8_t plain_suspend(struct plain_unit *u);

#endif
