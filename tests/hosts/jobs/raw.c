#include "raw.h"

#include <fcntl.h>
#include <stdio.h>
#include <string.h>
#include <unistd.h>

#include <linux/usbdevice_fs.h>

bool send_raw(int device, const char *name, const uint8_t *bytes, size_t length)
{
    uint8_t copy[STORE + 16];
    struct usbtmc_message message = {.transfer_size = (uint32_t)length, .flags = 0, .message = copy};

    memcpy(copy, bytes, length);
    return call(device, name, USBTMC_IOCTL_WRITE, &message) == 0;
}

bool read_raw(int device, const char *name)
{
    uint8_t bytes[STORE + 16];
    struct usbtmc_message message = {.transfer_size = sizeof bytes, .flags = 0, .message = bytes};
    int result = ioctl(device, USBTMC_IOCTL_READ, &message);

    if (result < 0)
        say("%s: %s", name, outcome(result));
    else
        say("%s: %u bytes", name, message.transferred);
    return result >= 0;
}

void put_header(uint8_t *header, uint8_t kind, uint8_t tag, uint32_t size, bool end)
{
    memset(header, 0, 12);
    header[0] = kind;
    header[1] = tag;
    header[2] = (uint8_t)~tag;
    header[4] = (uint8_t)size;
    header[5] = (uint8_t)(size >> 8);
    header[8] = end;
}

bool check_abort_in(int device)
{
    uint8_t answer[8];

    return control(device, "CHECK_ABORT_BULK_IN_STATUS", (struct control){0xA2, 4, 0, BULK_IN, 8}, answer);
}

bool initiate_clear(int device)
{
    uint8_t answer[1];

    return control(device, "INITIATE_CLEAR", (struct control){0xA1, 5, 0, 0, 1}, answer);
}

bool check_clear(int device)
{
    uint8_t answer[2];

    return control(device, "CHECK_CLEAR_STATUS", (struct control){0xA1, 6, 0, 0, 2}, answer);
}

bool set_halt(int device, uint8_t endpoint)
{
    char name[32];

    sprintf(name, "SET_FEATURE, halt of 0x%02x", endpoint);
    return control(device, name, (struct control){0x02, 3, 0, endpoint, 0}, NULL);
}

void say_halt(int device, uint8_t endpoint)
{
    char name[32];
    uint8_t answer[2];

    sprintf(name, "GET_STATUS of 0x%02x", endpoint);
    control(device, name, (struct control){0x82, 0, 0, endpoint, 2}, answer);
}

uint8_t newest_tag(int device)
{
    const uint8_t other = 255;
    uint8_t answer[2] = {0, 0};
    struct usbtmc_ctrlrequest asked = {
        .req = {.bRequestType = 0xA2, .bRequest = 3, .wValue = other, .wIndex = BULK_IN, .wLength = sizeof answer},
        .data = answer,
    };

    if (ioctl(device, USBTMC_IOCTL_CTRL_REQUEST, &asked) != sizeof answer || answer[1] == 0 || answer[1] == other)
        wrong("the newest tag is not told: %02x %02x", answer[0], answer[1]);
    return answer[1];
}

static unsigned number_in(const char *path, const char *format)
{
    unsigned number = 0;
    FILE *file = fopen(path, "r");

    if (file == NULL || fscanf(file, format, &number) != 1)
        wrong("%s has no number", path);
    if (file != NULL)
        fclose(file);
    return number;
}

unsigned packet_size(void)
{
    return number_in("/sys/class/usbmisc/usbtmc0/device/ep_01/wMaxPacketSize", "%x");
}

void reset_bus(void)
{
    char path[64];
    int device;

    sprintf(path, "/dev/bus/usb/%03u/%03u", number_in("/sys/class/usbmisc/usbtmc0/device/../busnum", "%u"),
            number_in("/sys/class/usbmisc/usbtmc0/device/../devnum", "%u"));
    device = open(path, O_WRONLY);
    call(device, "a USB reset", USBDEVFS_RESET, NULL);
    close(device);
}
