#include "traffic.h"

#include <string.h>

#define HEADER 12u

struct traffic traffic_from(uint64_t seed, size_t packet)
{
    struct traffic traffic = {.chance = chance_from(seed), .packet = packet};

    return traffic;
}

/* Bulk-OUT. */

static uint8_t next_tag(struct traffic *traffic)
{
    traffic->tag = traffic->tag == 255 ? 1 : (uint8_t)(traffic->tag + 1);
    return traffic->tag;
}

static void put_header(struct traffic *traffic, uint8_t kind, uint32_t size, uint8_t attributes, uint8_t term)
{
    const uint8_t tag = next_tag(traffic);
    const uint8_t header[HEADER] = {kind,
                                    tag,
                                    (uint8_t)~tag,
                                    0,
                                    (uint8_t)size,
                                    (uint8_t)(size >> 8),
                                    (uint8_t)(size >> 16),
                                    (uint8_t)(size >> 24),
                                    attributes,
                                    term};

    memset(traffic->transfer, 0, sizeof traffic->transfer);
    memcpy(traffic->transfer, header, HEADER);
    traffic->length = HEADER;
}

/* Short ones, ones about a packet or two long, and any that the store can have. */
static uint32_t message_size(struct traffic *traffic)
{
    switch (below(&traffic->chance, 3)) {
    case 0:
        return 1 + below(&traffic->chance, 8);
    case 1:
        return 1 + below(&traffic->chance, 200);
    default:
        return 1 + below(&traffic->chance, 1024);
    }
}

static void put_message(struct traffic *traffic)
{
    uint32_t size = message_size(traffic);
    uint32_t aligned = (size + 3) / 4 * 4;

    put_header(traffic, 1, size, one_in(&traffic->chance, 10) ? 0 : 1, 0);
    traffic->sent_tag = traffic->tag;
    /* Alignment bytes are zeros now and then, and else anything (02, request 2). */
    fill(&traffic->chance, traffic->transfer + HEADER, one_in(&traffic->chance, 4) ? size : aligned);
    traffic->length = HEADER + aligned;
}

static void put_request(struct traffic *traffic)
{
    uint32_t size = one_in(&traffic->chance, 2) ? 1024 : message_size(traffic);
    bool term = one_in(&traffic->chance, 8);

    put_header(traffic, 2, size, term ? 2 : 0, term ? (uint8_t)draw(&traffic->chance) : 0);
    traffic->asked_tag = traffic->tag;
}

/* A byte of the header, or the length, is not what it is to be. */
static void spoil(struct traffic *traffic)
{
    if (one_in(&traffic->chance, 4))
        traffic->length -= 1 + below(&traffic->chance, 8);
    else
        traffic->transfer[below(&traffic->chance, HEADER)] ^= (uint8_t)(1u << below(&traffic->chance, 8));
}

/* A host asks for the answer to a question, and for nothing while it reads; or seldom. */
static void begin_transfer(struct traffic *traffic)
{
    uint32_t what = below(&traffic->chance, 100);
    uint32_t requests = traffic->has_question && !traffic->reads ? 80 : 3;

    if (what < 4)
        put_header(traffic, 128, 0, 0, 0);
    else if (what < 4 + requests)
        put_request(traffic);
    else
        put_message(traffic);
    if (one_in(&traffic->chance, 40))
        spoil(traffic);
    traffic->at = 0;
}

size_t traffic_next_packet(struct traffic *traffic, const uint8_t **packet)
{
    size_t rest;

    if (traffic->at == traffic->length)
        begin_transfer(traffic);
    rest = traffic->length - traffic->at;
    *packet = traffic->transfer + traffic->at;
    return rest < traffic->packet ? rest : traffic->packet;
}

void traffic_has_gone(struct traffic *traffic, size_t length)
{
    traffic->at += length;
    traffic->is_stalled = false;
    if (traffic->at != traffic->length)
        return;
    traffic->has_question = traffic->transfer[0] == 1 && traffic->transfer[8] == 1;
    if (traffic->transfer[0] == 2)
        traffic->reads = true;
}

void traffic_gives_up(struct traffic *traffic)
{
    traffic->at = traffic->length;
}

void traffic_has_read(struct traffic *traffic, size_t length)
{
    if (length < traffic->packet)
        traffic->reads = false;
}

void traffic_meets_stall(struct traffic *traffic)
{
    traffic->is_stalled = true;
    traffic_gives_up(traffic);
}

void traffic_stops_reading(struct traffic *traffic)
{
    traffic->reads = false;
    traffic->has_question = false;
}

/* Setup packets. */

static uint8_t some_tag(struct traffic *traffic, uint8_t right)
{
    return one_in(&traffic->chance, 6) ? (uint8_t)draw(&traffic->chance) : right;
}

static uint8_t some_endpoint(struct traffic *traffic)
{
    static const uint8_t addresses[] = {0x01, 0x82, 0x83};

    return addresses[below(&traffic->chance, 3)];
}

static void put_setup(uint8_t *setup, uint8_t type, uint8_t request, uint8_t value, uint8_t index, uint8_t length)
{
    const uint8_t packet[8] = {type, request, value, 0, index, 0, length, 0};

    memcpy(setup, packet, sizeof packet);
}

/* Ways back from a halt of Bulk-OUT: it ends with CLEAR_FEATURE once no split stands in its way. */
static void put_way_back(struct traffic *traffic, uint8_t *setup)
{
    switch (below(&traffic->chance, 4)) {
    case 0:
        put_setup(setup, 0xA2, 2, 0, 0x01, 8); /* CHECK_ABORT_BULK_OUT_STATUS */
        break;
    case 1:
        put_setup(setup, 0xA1, 6, 0, 0, 2); /* CHECK_CLEAR_STATUS */
        break;
    default:
        put_setup(setup, 0x02, 1, 0, 0x01, 0); /* CLEAR_FEATURE */
        break;
    }
}

void traffic_setup(struct traffic *traffic, uint8_t setup[8])
{
    uint32_t what = below(&traffic->chance, 100);

    if (traffic->is_stalled && !one_in(&traffic->chance, 4))
        put_way_back(traffic, setup);
    else if (what < 20)
        put_setup(setup, 0xA2, 3, some_tag(traffic, traffic->asked_tag), 0x82, 2); /* INITIATE_ABORT_BULK_IN */
    else if (what < 40)
        put_setup(setup, 0xA2, 4, 0, 0x82, 8); /* CHECK_ABORT_BULK_IN_STATUS */
    else if (what < 44)
        put_setup(setup, 0xA2, 1, some_tag(traffic, traffic->sent_tag), 0x01, 2); /* INITIATE_ABORT_BULK_OUT */
    else if (what < 48)
        put_setup(setup, 0xA1, 5, 0, 0, 1); /* INITIATE_CLEAR */
    else if (what < 58)
        put_setup(setup, 0xA1, 6, 0, 0, 2); /* CHECK_CLEAR_STATUS */
    else if (what < 62)
        put_setup(setup, 0x02, 1, 0, some_endpoint(traffic), 0); /* CLEAR_FEATURE */
    else if (what < 64)
        put_setup(setup, 0x02, 3, 0, some_endpoint(traffic), 0); /* SET_FEATURE */
    else if (what < 70)
        put_setup(setup, 0x82, 0, 0, some_endpoint(traffic), 2); /* GET_STATUS */
    else if (what < 80)
        put_setup(setup, 0xA1, 128, (uint8_t)(2 + below(&traffic->chance, 126)), 0, 3); /* READ_STATUS_BYTE */
    else if (what < 85)
        put_setup(setup, 0xA1, 160, (uint8_t)below(&traffic->chance, 2), 0, 1); /* REN_CONTROL */
    else if (what < 87)
        put_setup(setup, 0x01, 11, 0, 0, 0); /* SET_INTERFACE */
    else if (what < 89)
        put_setup(setup, 0x00, 9, one_in(&traffic->chance, 8) ? 0 : 1, 0, 0); /* SET_CONFIGURATION */
    else if (what < 95)
        put_setup(setup, 0x80, 6, 0, 0, 18); /* GET_DESCRIPTOR */
    else
        fill(&traffic->chance, setup, 8);
}
