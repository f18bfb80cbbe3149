/* What a host sends by chance: messages in transfers and packets, requests, triggers and setup packets, most of them good. */
#ifndef TRAFFIC_H
#define TRAFFIC_H

#include "controller.h"
#include "../shared/chance.h"

struct traffic {
    struct chance chance;
    size_t packet; /* its size */
    uint8_t tag;
    uint8_t asked_tag;      /* of the last REQUEST */
    uint8_t sent_tag;       /* of the last DEV_DEP_MSG_OUT */
    bool has_question;      /* a message has gone, and its answer has not been asked for */
    bool reads;             /* an answer has been asked for, and its end has not come */
    bool is_stalled;        /* Bulk-OUT, as far as the host has seen */
    uint8_t transfer[1100]; /* that is on its way */
    size_t length;
    size_t at;
};

struct traffic traffic_from(uint64_t seed, size_t packet);

/* The next packet of Bulk-OUT. It is the same until it has gone, or is given up. */
size_t traffic_next_packet(struct traffic *traffic, const uint8_t **packet);
void traffic_has_gone(struct traffic *traffic, size_t length);
void traffic_gives_up(struct traffic *traffic);

/* What the host sees: a packet of Bulk-IN, or a STALL of Bulk-OUT. */
void traffic_has_read(struct traffic *traffic, size_t length);
void traffic_meets_stall(struct traffic *traffic);

/* What the host waits for will not come. */
void traffic_stops_reading(struct traffic *traffic);

void traffic_setup(struct traffic *traffic, uint8_t setup[8]);

#endif
