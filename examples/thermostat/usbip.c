#include "usbip.h"

#include <string.h>

#define VERSION 0x0111u

enum reply { LIST_REPLY = 0x0005, IMPORT_REPLY = 0x0003 };
enum speed { FULL_SPEED = 2, HIGH_SPEED = 3 };

#define DEVICE 312u  /* bytes that describe a device */
#define BUS_ID 32u   /* of them its bus id */
#define PATH 256u    /* and its path, which means something on the machine that has it */

static uint32_t get2(const uint8_t *bytes)
{
    return (uint32_t)bytes[0] << 8 | bytes[1];
}

static uint32_t get4(const uint8_t *bytes)
{
    return get2(bytes) << 16 | get2(bytes + 2);
}

static uint8_t *put2(uint8_t *at, uint32_t value)
{
    *at++ = (uint8_t)(value >> 8);
    *at++ = (uint8_t)value;
    return at;
}

static uint8_t *put4(uint8_t *at, uint32_t value)
{
    return put2(put2(at, value >> 16), value);
}

/* Before a device is attached. */

enum usbip_request usbip_request_of(const uint8_t *bytes)
{
    uint32_t request = get2(bytes + 2);

    if (get2(bytes) != VERSION || (request != USBIP_LIST_REQUEST && request != USBIP_IMPORT_REQUEST))
        return USBIP_NO_REQUEST;
    return (enum usbip_request)request;
}

bool usbip_names_device(const uint8_t *import)
{
    return strncmp((const char *)import + USBIP_REQUEST, USBIP_BUS_ID, BUS_ID) == 0;
}

static uint8_t *put_reply(uint8_t *at, enum reply reply, enum usbip_status status)
{
    return put4(put2(put2(at, VERSION), reply), status);
}

static uint8_t *put_text(uint8_t *at, const char *text, size_t room)
{
    memset(at, 0, room);
    memcpy(at, text, strlen(text));
    return at + room;
}

static uint8_t *put_device(uint8_t *at, bool is_fast)
{
    static const uint8_t rest[6] = {0, 0, 0, 1, 1, 1}; /* class, subclass and protocol of the device; configuration 1 of 1, of 1 interface */

    at = put_text(at, "/virtual/thermostat/" USBIP_BUS_ID, PATH);
    at = put_text(at, USBIP_BUS_ID, BUS_ID);
    at = put4(put4(at, USBIP_DEVICE >> 16), USBIP_DEVICE & 0xFFFF);
    at = put4(at, is_fast ? HIGH_SPEED : FULL_SPEED);
    at = put2(put2(put2(at, 0x1209), 0x0001), 0x0100); /* as in the device descriptor */
    memcpy(at, rest, sizeof rest);
    return at + sizeof rest;
}

size_t usbip_put_list(uint8_t *reply, bool is_fast)
{
    static const uint8_t interface[4] = {0xFE, 3, 1, 0};
    uint8_t *at = put_device(put4(put_reply(reply, LIST_REPLY, USBIP_OK), 1), is_fast);

    memcpy(at, interface, sizeof interface);
    return (size_t)(at - reply) + sizeof interface;
}

size_t usbip_put_import(uint8_t *reply, enum usbip_status status, bool is_fast)
{
    uint8_t *at = put_reply(reply, IMPORT_REPLY, status);

    if (status == USBIP_OK)
        at = put_device(at, is_fast);
    return (size_t)(at - reply);
}

_Static_assert(USBIP_REQUEST + 4 + DEVICE + 4 == USBIP_LONGEST_REPLY, "a list has a count, a device and an interface");
_Static_assert(USBIP_REQUEST + BUS_ID == USBIP_IMPORT, "an import names a bus id");

/* Afterwards. */

struct usbip_command usbip_read(const uint8_t *head)
{
    struct usbip_command command = {.kind = get4(head),
                                    .number = get4(head + 4),
                                    .device = get4(head + 8),
                                    .is_in = get4(head + 12) != 0,
                                    .endpoint = get4(head + 16)};

    if (command.kind == USBIP_UNLINK) {
        command.unlinked = get4(head + 20);
    } else {
        command.flags = get4(head + 20);
        command.length = get4(head + 24);
        command.isochronous = get4(head + 32);
        memcpy(command.setup, head + 40, sizeof command.setup);
    }
    return command;
}

enum returned { RETURN_SUBMIT = 3, RETURN_UNLINK = 4 };

/* Device, direction and endpoint are 0 in a return. */
static void put_return(uint8_t *head, enum returned kind, uint32_t number, enum usbip_end end)
{
    memset(head, 0, USBIP_HEAD);
    put4(put4(head, kind), number);
    put4(head + 20, (uint32_t)end);
}

void usbip_put_submitted(uint8_t *head, uint32_t number, enum usbip_end end, size_t length)
{
    put_return(head, RETURN_SUBMIT, number, end);
    put4(head + 24, (uint32_t)length);
}

void usbip_put_unlinked(uint8_t *head, uint32_t number, enum usbip_end end)
{
    put_return(head, RETURN_UNLINK, number, end);
}
