/* The USB/IP server: connections on 127.0.0.1, one of which may be the host that has the device. */
#ifndef SERVER_H
#define SERVER_H

#include <stdbool.h>
#include <stdint.h>

/* Listens on the port, or on a free one where it is 0; the port that it is. 0: it cannot, and errno says why. */
uint16_t server_start(uint16_t port, bool is_fast);

/* Waits until something comes, at most that long, and does what is asked for. */
void server_wait(int milliseconds);

/* Sends what the host can take of what it is to have. */
void server_flush(void);

/* For whoever watches: a host has come (with a reset of the bus), or gone. */
void server_says(const char *words);

#endif
