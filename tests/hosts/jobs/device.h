/* The device file as the jobs use it. What a job does and what it sees are lines of standard output. */
#ifndef DEVICE_H
#define DEVICE_H

#include <stdbool.h>
#include <stddef.h>
#include <stdint.h>
#include <sys/ioctl.h>
#include <sys/types.h>

#include <linux/usb/tmc.h>

#define STORE 1024u /* bytes that a message, and a reply, can have */

__attribute__((format(printf, 1, 2))) void say(const char *format, ...);
__attribute__((format(printf, 1, 2))) void wrong(const char *format, ...); /* the job fails, and goes on */
void scene(const char *title);
int all_said(void); /* the exit of a job: 0 where nothing was wrong */

const char *quoted(const uint8_t *bytes, size_t length); /* one at a time */
const char *outcome(long result);                        /* of a system call: done, or what errno says in words */
void wait_milliseconds(unsigned milliseconds);

int open_device(void);
void set_limit(int device, unsigned milliseconds); /* for each read and write */
void set_end(int device, bool end);                /* whether a write ends its message */

/* These say what came of it, and give what the system call gives. */
ssize_t send_bytes(int device, const uint8_t *bytes, size_t length);
ssize_t send_text(int device, const char *text);
ssize_t read_some(int device, size_t room);
int call(int device, const char *name, unsigned long request, void *argument);

/* A control transfer through the driver. Says the bytes that came; false where it was stalled. */
struct control {
    uint8_t type, request;
    uint16_t value, index, length;
};
bool control(int device, const char *name, struct control setup, uint8_t *answer);

/* Whether the driver tells, by poll, that a service request has come. */
bool asks_for_service(int device, int milliseconds);

/* A setpoint that no other scene of the job sets is set, and read back. `first_setpoint` is the job's own, in thousandths. */
void first_setpoint(unsigned thousandths);
void try_whole_command(int device);

#endif
