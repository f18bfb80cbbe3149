/* rounds N: random messages of 1 to 1,024 bytes, written in random pieces and read back in random pieces. The device gives each one back as it came. */
#include "device.h"

#include <stdlib.h>
#include <string.h>
#include <unistd.h>

static uint64_t chance_state = 27500;

static uint32_t chance(uint32_t below)
{
    chance_state ^= chance_state << 13;
    chance_state ^= chance_state >> 7;
    chance_state ^= chance_state << 17;
    return (uint32_t)(chance_state >> 33) % below;
}

/* All that is left, or any part of it. */
static size_t piece_of(size_t left)
{
    return chance(3) == 0 ? left : 1 + chance((uint32_t)left);
}

static bool send_round(int device, const uint8_t *message, size_t length, size_t *pieces)
{
    size_t at = 0;

    while (at < length) {
        size_t piece = piece_of(length - at);

        set_end(device, at + piece == length);
        if (write(device, message + at, piece) != (ssize_t)piece)
            return false;
        at += piece;
        ++*pieces;
    }
    return true;
}

static bool read_round(int device, uint8_t *reply, size_t length, size_t *pieces)
{
    size_t at = 0;

    while (at < length) {
        size_t piece = piece_of(length - at);

        if (read(device, reply + at, piece) != (ssize_t)piece)
            return false;
        at += piece;
        ++*pieces;
    }
    return true;
}

/* Each size at the edge of a packet comes at least once. */
static size_t size_of_round(unsigned long round)
{
    static const size_t edges[] = {1, 2, 3, 4, 51, 52, 53, 116, 499, 500, 501, 511, 512, 513, 1011, 1012, 1013, 1020, 1023, 1024};

    return round < sizeof edges / sizeof edges[0] ? edges[round] : 1 + chance(STORE);
}

int main(int count, char **words)
{
    unsigned long rounds = count == 2 ? strtoul(words[1], NULL, 10) : 1000, round;
    size_t bytes = 0, written = 0, read_back = 0;
    uint8_t message[STORE], reply[STORE];
    int device = open_device();

    scene("Random messages in random pieces, written and read back");
    for (round = 0; round < rounds; round++) {
        size_t length = size_of_round(round), i;

        for (i = 0; i < length; i++)
            message[i] = (uint8_t)chance(256);
        memset(reply, 0, sizeof reply);
        if (!send_round(device, message, length, &written) || !read_round(device, reply, length, &read_back)) {
            wrong("round %lu of %zu bytes: %s", round, length, outcome(-1));
            break;
        }
        if (memcmp(message, reply, length) != 0) {
            wrong("round %lu of %zu bytes: other bytes came back", round, length);
            break;
        }
        bytes += length;
    }
    if (round == rounds)
        say("%lu rounds, %zu bytes: written in %zu pieces, read in %zu, all equal", round, bytes, written, read_back);
    return all_said();
}
