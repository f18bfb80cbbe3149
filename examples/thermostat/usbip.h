/* The messages of USB/IP, version 1.1.1, in bytes: numbers have their high byte first. */
#ifndef USBIP_H
#define USBIP_H

#include <stdbool.h>
#include <stddef.h>
#include <stdint.h>

#define USBIP_PORT 3240 /* the one that its tools take where none is said */
#define USBIP_BUS_ID "1-1"

/* Before a device is attached: a request, and its reply. */

#define USBIP_REQUEST 8u         /* bytes that each request begins with */
#define USBIP_IMPORT 40u         /* and those of an import, with the bus id */
#define USBIP_LONGEST_REPLY 328u /* that of a list */

enum usbip_request { USBIP_LIST_REQUEST = 0x8005, USBIP_IMPORT_REQUEST = 0x8003, USBIP_NO_REQUEST = 0 };

/* What the first 8 bytes ask for; USBIP_NO_REQUEST where they are none of this version. */
enum usbip_request usbip_request_of(const uint8_t *bytes);

enum usbip_status { USBIP_OK = 0, USBIP_BUSY = 2, USBIP_NO_DEVICE = 4 };

bool usbip_names_device(const uint8_t *import);

/* Write a reply; its length. */
size_t usbip_put_list(uint8_t *reply, bool is_fast);
size_t usbip_put_import(uint8_t *reply, enum usbip_status status, bool is_fast);

/* Afterwards: commands and their returns, each with a head of 48 bytes. */

#define USBIP_HEAD 48u
#define USBIP_DEVICE 0x00010002u /* bus 1, device 2: what each command carries */

enum usbip_kind { USBIP_SUBMIT = 1, USBIP_UNLINK = 2 };

struct usbip_command {
    uint32_t kind;
    uint32_t number; /* of this command */
    uint32_t device;
    bool is_in;
    uint32_t endpoint;

    uint32_t flags; /* of a submit, as the next */
    uint32_t length;
    uint32_t isochronous; /* packets; 0 and all ones: it is no isochronous transfer */
    uint8_t setup[8];

    uint32_t unlinked; /* of an unlink: the number of the submit */
};

#define USBIP_SHORT_IS_ERROR 0x01u /* flags of a submit */
#define USBIP_ZERO_PACKET 0x40u

struct usbip_command usbip_read(const uint8_t *head);

/* How a transfer ended, in Linux's numbers. */
enum usbip_end {
    USBIP_DONE = 0,
    USBIP_OUT_OF_MEMORY = -12,
    USBIP_STALLED = -32,
    USBIP_NO_ANSWER = -71,
    USBIP_OVERFLOW = -75,
    USBIP_TOO_LONG = -90,
    USBIP_UNLINKED = -104,
    USBIP_TOO_SHORT = -121
};

void usbip_put_submitted(uint8_t *head, uint32_t number, enum usbip_end end, size_t length);
void usbip_put_unlinked(uint8_t *head, uint32_t number, enum usbip_end end);

#endif
