/* A call of the port as data, and its makers. */
#ifndef CALL_H
#define CALL_H

#include <stdbool.h>
#include <stddef.h>
#include <stdint.h>

#define LARGEST_LENT 1024

enum call_kind { POWER_ON, SETUP, BULK_OUT, BULK_IN, INTERRUPT_IN, TAKE, OFFER, SET_STATUS, PANEL, BUS_RESET, SUSPEND, KINDS };

struct call {
    enum call_kind kind;
    uint16_t number;             /* power-on's packet size, or the status byte */
    size_t length;               /* of the bytes that the call reads */
    size_t room;                 /* of the buffer that it writes */
    uint8_t bytes[LARGEST_LENT]; /* a setup packet, a Bulk-OUT packet or a reply */
};

/* A call that neither reads bytes nor takes a number: a panel, bus reset or suspend. */
struct call bare(enum call_kind kind);

struct call power_on(uint16_t packet_size);
struct call set_status(uint8_t status);
struct call take(size_t room);
struct call poll(size_t room);
struct call interrupt_poll(void);
struct call setup(uint8_t type, uint8_t request, uint16_t value, uint16_t index, uint16_t length);

/* A reply of letters. With a line end in it, that is the byte of that index. */
struct call offer(size_t length);
struct call offer_with_line_end(size_t length, size_t index);

/* A Bulk-OUT packet: the header of a message of `size` bytes with the first `carried` of them; and one that continues. Both with
   alignment bytes up to a multiple of four. */
struct call message(uint8_t tag, size_t size, bool end, size_t carried);
struct call continuing(size_t carried);

struct call request(uint8_t tag, uint16_t size);
struct call request_to_line_end(uint8_t tag, uint16_t size);
struct call trigger(uint8_t tag);

#endif
