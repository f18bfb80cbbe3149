/* The host's transfers: what a host controller makes of each, packet by packet, on the wire. */
#ifndef TRANSFERS_H
#define TRANSFERS_H

#include "usbip.h"

#define TRANSFERS 64u             /* that wait at a time, for all endpoints */
#define TRANSFER_LONGEST 65536u   /* bytes of one to the device */
#define TRANSFER_LONGEST_IN 4096u /* bytes of one to the host: a packet shorter than P ends each, and none of the port's has more */

/* What a transfer that has ended gives the host: its head and, where it is one to the host, its bytes. */
void transfers_return(const uint8_t *bytes, size_t length);

/* Takes a transfer over, with `command.length` bytes, at most TRANSFER_LONGEST, where it is to the device. */
void transfers_submit(const struct usbip_command *command, const uint8_t *bytes);

/* Takes one back. */
void transfers_unlink(const struct usbip_command *command);

/* Plays packets on the wire as long as they are not answered NAK, on each endpoint for the transfer that has waited longest. False: nothing moved. */
bool transfers_play(void);

/* The host has gone, and all of its transfers with it. */
void transfers_drop(void);

#endif
