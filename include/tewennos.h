/* Tewennos: the device side of a USBTMC port (USBTMC 1.0 with USB488 1.0), proved. Link with libtewennos.a.

   One unit is one port. It lives in your memory, and only these functions write it. They keep no memory of their own. Every call
   ends with one answer, whatever the unit and the lent bytes hold.

   What the proofs take for granted, and you keep:
   - every pointer is valid for its length, and not null; where the length is 0, any address that is not null will do;
   - the unit, the bytes that a call reads and the buffer that it writes do not overlap;
   - a unit has one caller at a time: mask the controller's interrupt around the main loop's calls.

   docs/GUIDE.md says what each answer means on the wire, and how a loop over these calls goes. */
#ifndef TEWENNOS_H
#define TEWENNOS_H

#include <stddef.h>
#include <stdint.h>

#ifdef __cplusplus
extern "C" {
#endif

#define TMC_STORE 1024u         /* bytes that a message, and a reply, can have */
#define TMC_CONTROL_BUFFER 24u  /* bytes that a setup packet's answer may need */
#define TMC_INTERRUPT_BUFFER 2u /* bytes of a packet of Interrupt-IN */
#define TMC_FULL_SPEED 64u      /* the packet sizes */
#define TMC_HIGH_SPEED 512u

/* The numbers that a call is answered with: document 01's table; no call gives one that has no name here. 6 to 13 halt Bulk-OUT. The others
   but 0 leave all as it was, and write nothing, but for 3 at power-on, which makes a unit for packets of 64. */
enum tmc_number {
    TMC_NUMBER_DONE = 0,
    TMC_NUMBER_UNSOUND = 1, /* the unit is none that these functions write: overwritten, or never powered on */
    TMC_NUMBER_UNCONFIGURED = 2,
    TMC_NUMBER_WRONG_SIZE = 3, /* of what was lent, or of the packet at power-on */
    TMC_NUMBER_HALTED = 4,
    TMC_NUMBER_WAIT = 5,
    TMC_NUMBER_NOT_IN_FOURS = 6,
    TMC_NUMBER_SHORT_HEADER = 7,
    TMC_NUMBER_BAD_TAG = 8,
    TMC_NUMBER_UNKNOWN_MSGID = 9,
    TMC_NUMBER_RESERVED = 10,
    TMC_NUMBER_WRONG_LENGTH = 11,
    TMC_NUMBER_TOO_LONG = 12,
    TMC_NUMBER_OUT_OF_TURN = 13,
    TMC_NUMBER_NO_ROW = 15, /* a setup packet that the port does not serve, or not in this form or not yet: serve it or stall it */
    TMC_NUMBER_NOT_NOW = 16
};

/* The USBTMC status in the first byte of a control answer. */
enum tmc_status {
    TMC_STATUS_SUCCESS = 0x01,
    TMC_STATUS_PENDING = 0x02,
    TMC_STATUS_INTERRUPT_IN_BUSY = 0x20, /* of READ_STATUS_BYTE alone: a packet of Interrupt-IN waits already */
    TMC_STATUS_FAILED = 0x80,
    TMC_STATUS_TRANSFER_NOT_IN_PROGRESS = 0x81,
    TMC_STATUS_SPLIT_NOT_IN_PROGRESS = 0x82,
    TMC_STATUS_SPLIT_IN_PROGRESS = 0x83
};

/* What an answer tells the instrument to do, beside its number. */
enum tmc_tells { TMC_TELLS_NOTHING = 0, TMC_TELLS_TRIGGER = 1, TMC_TELLS_PULSE = 2 };

/* `length` bytes of the lent buffer are the answer; those past them are as they were. */
struct tmc_answer {
    uint8_t number;
    uint8_t tells;
    size_t length;
};

/* How far a Bulk-IN transfer is, the split in progress, and the remote/local state, as the unit has them. */
enum tmc_phase { TMC_PHASE_CLOSED = 0, TMC_PHASE_ASKED = 1, TMC_PHASE_SENDING = 2, TMC_PHASE_OWED = 3 };
enum tmc_split { TMC_SPLIT_NONE = 0, TMC_SPLIT_ABORT_OUT = 1, TMC_SPLIT_ABORT_IN = 2, TMC_SPLIT_CLEAR = 3 };
enum tmc_remote { TMC_REMOTE_LOCS = 0, TMC_REMOTE_REMS = 1, TMC_REMOTE_LWLS = 2, TMC_REMOTE_RWLS = 3 };

/* The unit, which you may look at while no call is under way, and which no one else writes. Flags are 0 or 1. A number of two bytes has
   its low byte first, whatever the processor's order is. No byte is padding. */
struct tmc_unit {
    uint8_t message[TMC_STORE];
    uint8_t reply[TMC_STORE];

    uint16_t packet; /* 64 or 512 */
    uint8_t configured;
    uint8_t ren;

    /* Bulk-OUT: the message, and the transfer that brings it. */
    uint16_t out_held; /* data bytes of the message */
    uint8_t out_ready; /* the message is whole */
    uint8_t out_halted;
    uint16_t out_left;  /* data bytes that are to come: a transfer is open while there are some */
    uint16_t out_got;   /* data bytes of the open transfer that have come */
    uint8_t out_end;    /* the open transfer's EOM */
    uint8_t out_recent; /* the most recent tag */

    /* Bulk-IN: the reply, and the transfer that fetches it. */
    uint16_t in_at; /* where the reply's unsent bytes begin */
    uint16_t in_unsent;
    uint16_t in_asked;  /* by the host's REQUEST, at most 1,024 */
    uint16_t in_left;   /* data bytes of the transfer that are to go */
    uint16_t in_sent;   /* and those that went */
    uint8_t in_phase;   /* enum tmc_phase */
    uint8_t in_tag;     /* of the open transfer */
    uint8_t in_enabled; /* TermChar, and the byte */
    uint8_t in_term;
    uint8_t in_halted;
    uint8_t in_recent; /* the most recent tag */

    /* Interrupt-IN: the status byte, and the packet that waits to tell of it. */
    uint8_t status;  /* bit 6 is on only while a packet waits, and is then a service request that is kept */
    uint8_t notify1; /* 0: no packet waits. 0x81: a service request. Above: 0x80 and the tag of a READ_STATUS_BYTE */
    uint8_t notify2; /* the status byte in the packet */
    uint8_t interrupt_halted;

    uint16_t count; /* of an abort: the data bytes of its transfer */
    uint8_t split;  /* enum tmc_split */

    uint8_t remote; /* enum tmc_remote */
};

/* Power-on, for packets of 64 or 512 bytes. Any other size is answered 3, with a unit for 64. What the unit held does not matter. */
struct tmc_answer tmc_power_on(struct tmc_unit *unit, uint16_t packet);

/* A setup packet. On 0, send the `length` bytes of `buffer` or, where there are none, acknowledge; on anything else, stall.
   `room` is at least 24. An answer may tell a pulse. */
struct tmc_answer tmc_setup(struct tmc_unit *unit, const uint8_t *packet, size_t n, uint8_t *buffer, size_t room);

/* A Bulk-OUT packet, 0 to P bytes. 0: acknowledged. 5: answer NAK and give the same packet again. 4 and 6 to 13: stall the endpoint.
   An answer may tell a trigger. */
struct tmc_answer tmc_bulk_out(struct tmc_unit *unit, const uint8_t *packet, size_t n);

/* A Bulk-IN poll. 0: send the `length` bytes of `buffer` as one packet, also where there are none. 5: answer NAK. 4: stall.
   `room` is at least P. */
struct tmc_answer tmc_bulk_in(struct tmc_unit *unit, uint8_t *buffer, size_t room);

/* A poll of Interrupt-IN. 0: send the two bytes of `buffer`; the packet has left the unit. 5: answer NAK. 4: stall. `room` is at least 2. */
struct tmc_answer tmc_interrupt_in(struct tmc_unit *unit, uint8_t *buffer, size_t room);

/* Takes the message, where one is ready: 0, and `length` bytes. 16: there is none. 3: `room` is too small for it; it stays. */
struct tmc_answer tmc_take(struct tmc_unit *unit, uint8_t *buffer, size_t room);

/* Offers a reply of 1 to 1,024 bytes, which the host's next requests fetch. 16: one is stored, or a clear is in progress. */
struct tmc_answer tmc_offer(struct tmc_unit *unit, const uint8_t *reply, size_t n);

/* The status byte. Bit 6 on asks the host for service: where no packet of Interrupt-IN waits, 0x81 and the byte are queued, and bit 6 of the
   byte that is held is cleared. While one waits the byte is held as it is; if its bit 6 is still on when that packet is polled, it is queued
   and bit 6 cleared then. Without bit 6 nothing is sent; READ_STATUS_BYTE reads the byte that is held. */
struct tmc_answer tmc_set_status(struct tmc_unit *unit, uint8_t status);

/* The front panel asks for local control. */
struct tmc_answer tmc_panel(struct tmc_unit *unit);

/* The bus is reset: the unit is as at power-on, with its packet size. */
struct tmc_answer tmc_bus_reset(struct tmc_unit *unit);

/* The bus is suspended. */
struct tmc_answer tmc_suspend(struct tmc_unit *unit);

#ifdef __cplusplus
}
#endif

/* The library was built for this layout; tools/layout holds it to the definitions. */
#ifdef __cplusplus
#define TMC_HOLDS(fact) static_assert(fact, #fact)
#else
#define TMC_HOLDS(fact) _Static_assert(fact, #fact)
#endif
TMC_HOLDS(offsetof(struct tmc_unit, message) == 0);
TMC_HOLDS(offsetof(struct tmc_unit, reply) == 1024);
TMC_HOLDS(offsetof(struct tmc_unit, packet) == 2048);
TMC_HOLDS(offsetof(struct tmc_unit, configured) == 2050);
TMC_HOLDS(offsetof(struct tmc_unit, ren) == 2051);
TMC_HOLDS(offsetof(struct tmc_unit, out_held) == 2052);
TMC_HOLDS(offsetof(struct tmc_unit, out_ready) == 2054);
TMC_HOLDS(offsetof(struct tmc_unit, out_halted) == 2055);
TMC_HOLDS(offsetof(struct tmc_unit, out_left) == 2056);
TMC_HOLDS(offsetof(struct tmc_unit, out_got) == 2058);
TMC_HOLDS(offsetof(struct tmc_unit, out_end) == 2060);
TMC_HOLDS(offsetof(struct tmc_unit, out_recent) == 2061);
TMC_HOLDS(offsetof(struct tmc_unit, in_at) == 2062);
TMC_HOLDS(offsetof(struct tmc_unit, in_unsent) == 2064);
TMC_HOLDS(offsetof(struct tmc_unit, in_asked) == 2066);
TMC_HOLDS(offsetof(struct tmc_unit, in_left) == 2068);
TMC_HOLDS(offsetof(struct tmc_unit, in_sent) == 2070);
TMC_HOLDS(offsetof(struct tmc_unit, in_phase) == 2072);
TMC_HOLDS(offsetof(struct tmc_unit, in_tag) == 2073);
TMC_HOLDS(offsetof(struct tmc_unit, in_enabled) == 2074);
TMC_HOLDS(offsetof(struct tmc_unit, in_term) == 2075);
TMC_HOLDS(offsetof(struct tmc_unit, in_halted) == 2076);
TMC_HOLDS(offsetof(struct tmc_unit, in_recent) == 2077);
TMC_HOLDS(offsetof(struct tmc_unit, status) == 2078);
TMC_HOLDS(offsetof(struct tmc_unit, notify1) == 2079);
TMC_HOLDS(offsetof(struct tmc_unit, notify2) == 2080);
TMC_HOLDS(offsetof(struct tmc_unit, interrupt_halted) == 2081);
TMC_HOLDS(offsetof(struct tmc_unit, count) == 2082);
TMC_HOLDS(offsetof(struct tmc_unit, split) == 2084);
TMC_HOLDS(offsetof(struct tmc_unit, remote) == 2085);
TMC_HOLDS(sizeof(struct tmc_unit) == 2086);
TMC_HOLDS(offsetof(struct tmc_answer, number) == 0);
TMC_HOLDS(offsetof(struct tmc_answer, tells) == 1);
TMC_HOLDS(offsetof(struct tmc_answer, length) == sizeof(size_t));
TMC_HOLDS(sizeof(struct tmc_answer) == 2 * sizeof(size_t));
#undef TMC_HOLDS

#endif
