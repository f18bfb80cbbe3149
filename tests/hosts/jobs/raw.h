/* Below the driver's reads and writes: single packets, class requests with their answers, and a USB reset. */
#ifndef RAW_H
#define RAW_H

#include "device.h"

enum { BULK_OUT = 0x01, BULK_IN = 0x82, INTERRUPT_IN = 0x83 };

/* Bytes that go on Bulk-OUT as they are. */
bool send_raw(int device, const char *name, const uint8_t *bytes, size_t length);
/* What comes on Bulk-IN, as it is. */
bool read_raw(int device, const char *name);

/* The header of a transfer, 12 bytes: a message, or a REQUEST for up to `size` bytes. */
enum { MESSAGE = 1, REQUEST = 2 };
void put_header(uint8_t *header, uint8_t kind, uint8_t tag, uint32_t size, bool end);

/* The class requests, by their names. Each says the bytes that it was answered with. */
bool check_abort_in(int device);
bool initiate_clear(int device);
bool check_clear(int device);
bool set_halt(int device, uint8_t endpoint);
void say_halt(int device, uint8_t endpoint);

/* The tag of the newest REQUEST: an abort with another tag tells it. Says nothing. */
uint8_t newest_tag(int device);

/* 64 or 512: what the descriptors say. */
unsigned packet_size(void);

/* By usbfs. The device file stays open. */
void reset_bus(void);

#endif
