/* The same host on two devices: one has a controller that asks at each packet, the other one that works ahead. Whatever the second one answers must be what the
   first one does, but for this:
   - NAKs. What the second one answers NAK, the host tries again later.
   - A packet of Bulk-OUT that is at fault, and one behind it, are acknowledged; the STALL comes with the next one.
   - A packet of Bulk-OUT is acknowledged before it is let in. With the first device the host holds it, and gives it up when it gives up what it sends.

   The interrupt of the second device is masked for a while now and then. What happens in such a while has no order but that of ahead.c: packets that have gone
   come before those that came. */
#define _POSIX_C_SOURCE 200809L

#include "device.h"
#include "port.h"
#include "traffic.h"

#include <stdio.h>
#include <stdlib.h>
#include <string.h>
#include <sys/socket.h>
#include <unistd.h>

#define MOST_IN_A_WHILE 6

enum counted {
    COUNT_SETUPS,
    COUNT_ABORTS,
    COUNT_COUNTS,
    COUNT_PENDING,
    COUNT_SERVICE,
    COUNT_READ,
    COUNT_SENT,
    COUNT_LATE_STALLS,
    COUNT_HELD,
    COUNT_GIVEN_UP,
    COUNTED
};
static const char *const count_words[COUNTED] = {[COUNT_SETUPS] = "setup packets answered the same",
                                                 [COUNT_ABORTS] = "aborts of Bulk-IN answered SUCCESS while a packet was loaded",
                                                 [COUNT_COUNTS] = "counts of an aborted read that were not 0",
                                                 [COUNT_PENDING] = "CHECKs answered PENDING, with the empty packet loaded",
                                                 [COUNT_SERVICE] = "packets of Interrupt-IN",
                                                 [COUNT_READ] = "packets of Bulk-IN",
                                                 [COUNT_SENT] = "packets of Bulk-OUT",
                                                 [COUNT_LATE_STALLS] = "packets at fault that were acknowledged",
                                                 [COUNT_HELD] = "packets that were acknowledged and not let in at once",
                                                 [COUNT_GIVEN_UP] = "of them given up"};

static struct {
    int ahead; /* the socket of the device that works ahead */
    struct traffic traffic;
    bool is_configured;
    unsigned long counts[COUNTED];

    /* A packet that the asking device does not let in, and the host holds: the other one has acknowledged it. */
    bool holds;
    struct play held;
} bench;

static unsigned long steps;

static void fail(const char *what, const struct play *play, const struct wire_answer *asks, const struct wire_answer *ahead)
{
    static const char *const handshakes[] = {"ACK", "NAK", "STALL"};
    const struct wire_answer *answers[2] = {asks, ahead};
    size_t i, k;

    printf("step %lu: %s\n  event %d, packet", steps, what, (int)play->event);
    for (i = 0; i < play->length && i < 16; i++)
        printf(" %02x", play->packet[i]);
    for (k = 0; k < 2; k++) {
        printf("\n  %s: %s, %zu bytes", k == 0 ? "one that asks" : "one that works ahead", handshakes[answers[k]->handshake], answers[k]->length);
        for (i = 0; i < answers[k]->length && i < 24; i++)
            printf(" %02x", answers[k]->bytes[i]);
    }
    printf("\n");
    exit(1);
}

/* The device that works ahead. */
static struct wire_answer ahead_plays(const struct play *play)
{
    struct wire_answer answer;

    if (write(bench.ahead, play, sizeof *play) != (ssize_t)sizeof *play || read(bench.ahead, &answer, sizeof answer) != (ssize_t)sizeof answer) {
        printf("the device that works ahead has gone\n");
        exit(1);
    }
    return answer;
}

static bool is_same(const struct wire_answer *a, const struct wire_answer *b)
{
    return a->handshake == b->handshake && a->length == b->length && memcmp(a->bytes, b->bytes, a->length) == 0;
}

/* What the device that works ahead has answered, and not with NAK, is played on the one that asks. */
static void follow(const struct play *play, const struct wire_answer *ahead)
{
    struct wire_answer asks = device_plays(play);

    if (play->event == EVENT_BULK_OUT && ahead->handshake == HANDSHAKE_ACK) {
        bench.counts[COUNT_SENT]++;
        if (asks.handshake == HANDSHAKE_STALL) {
            bench.counts[COUNT_LATE_STALLS]++;
            traffic_gives_up(&bench.traffic);
        } else if (asks.handshake == HANDSHAKE_NAK) {
            if (bench.holds)
                fail("two packets are held", play, &asks, ahead);
            bench.counts[COUNT_HELD]++;
            bench.holds = true;
            bench.held = *play;
        }
        return;
    }
    if (!is_same(&asks, ahead))
        fail("the answers differ", play, &asks, ahead);
    if (play->event == EVENT_BULK_IN && ahead->handshake == HANDSHAKE_ACK) {
        bench.counts[COUNT_READ]++;
        traffic_has_read(&bench.traffic, ahead->length);
    }
    if (play->event == EVENT_INTERRUPT_IN && ahead->handshake == HANDSHAKE_ACK)
        bench.counts[COUNT_SERVICE]++;
    if (play->event == EVENT_BULK_OUT && ahead->handshake == HANDSHAKE_STALL)
        traffic_meets_stall(&bench.traffic);
}

/* The host tries the packet that it holds again. */
static void try_held(void)
{
    struct wire_answer asks;

    if (!bench.holds)
        return;
    asks = device_plays(&bench.held);
    bench.holds = asks.handshake == HANDSHAKE_NAK;
    if (asks.handshake == HANDSHAKE_STALL)
        bench.counts[COUNT_LATE_STALLS]++;
}

/* What a host does. */

static struct play packet_play(enum controller_event event)
{
    struct play play = {.what = PLAY_EVENT, .event = event};
    const uint8_t *packet;

    if (event == EVENT_BULK_OUT) {
        play.length = traffic_next_packet(&bench.traffic, &packet);
        memcpy(play.packet, packet, play.length);
    }
    return play;
}

/* A host that waits for an answer polls for it, most of the time, and else sends. */
static enum controller_event some_event(void)
{
    uint32_t what = below(&bench.traffic.chance, 20);
    uint32_t sends = bench.traffic.reads ? 1 : 14;

    return what < sends ? EVENT_BULK_OUT : what < 18 ? EVENT_BULK_IN : EVENT_INTERRUPT_IN;
}

/* With the interrupt at work, polls are answered the same, NAKs too, and so is a packet of Bulk-OUT that is not acknowledged. */
static void play_packet(void)
{
    struct play play = packet_play(some_event());
    struct wire_answer ahead = ahead_plays(&play);

    if (play.event == EVENT_BULK_OUT && ahead.handshake == HANDSHAKE_NAK && bench.holds)
        return;
    follow(&play, &ahead);
    if (play.event == EVENT_BULK_OUT && ahead.handshake == HANDSHAKE_ACK)
        traffic_has_gone(&bench.traffic, play.length);
}

/* With the interrupt masked: packets that went and came, of which the host sees only the controller's own answers. */
static void play_while_masked(void)
{
    static const struct play mask = {.what = PLAY_MASK};
    static const struct play unmask = {.what = PLAY_UNMASK};
    static const enum controller_event order[] = {EVENT_BULK_IN, EVENT_INTERRUPT_IN, EVENT_BULK_OUT};
    struct play plays[MOST_IN_A_WHILE];
    struct wire_answer answers[MOST_IN_A_WHILE];
    unsigned count = 1 + below(&bench.traffic.chance, MOST_IN_A_WHILE);
    unsigned i, k;

    ahead_plays(&mask);
    for (i = 0; i < count; i++) {
        plays[i] = packet_play(some_event());
        answers[i] = ahead_plays(&plays[i]);
        if (plays[i].event == EVENT_BULK_OUT && answers[i].handshake == HANDSHAKE_ACK)
            traffic_has_gone(&bench.traffic, plays[i].length);
    }
    ahead_plays(&unmask);
    for (k = 0; k < sizeof order / sizeof order[0]; k++)
        for (i = 0; i < count; i++)
            if (plays[i].event == order[k] && answers[i].handshake != HANDSHAKE_NAK)
                follow(&plays[i], &answers[i]);
}

/* Whether the host stops sending with this setup packet: then it does not try again what it holds. A clear and SET_FEATURE are named for the host's sake: they
   halt Bulk-OUT, and each device refuses the packet from then on. */
static bool gives_up_sending(const uint8_t *setup, const struct wire_answer *answer)
{
    bool is_request = bench.held.packet[0] == 2;
    unsigned request = (unsigned)setup[0] << 8 | setup[1];

    if (answer->handshake != HANDSHAKE_ACK)
        return false;
    switch (request) {
    case 0x0009:
    case 0x010B:
    case 0xA201:
    case 0xA105:
        return true;
    case 0x0201:
    case 0x0203:
        return setup[4] == 0x01;
    case 0xA203:
        return bench.held.length >= 2 && is_request && (bench.held.packet[1] == setup[2] || answer->bytes[0] == TMC_STATUS_FAILED);
    default:
        return false;
    }
}

static void note_setup(const uint8_t *setup, const struct wire_answer *answer, bool was_loaded)
{
    unsigned request = (unsigned)setup[0] << 8 | setup[1];

    bench.counts[COUNT_SETUPS]++;
    if (answer->handshake != HANDSHAKE_ACK)
        return;
    if (request == 0x0009)
        bench.is_configured = setup[2] == 1;
    if (request == 0xA203 && answer->bytes[0] == TMC_STATUS_SUCCESS && was_loaded)
        bench.counts[COUNT_ABORTS]++;
    if (request == 0xA204 && answer->bytes[0] == TMC_STATUS_SUCCESS && (answer->bytes[4] | answer->bytes[5]) != 0)
        bench.counts[COUNT_COUNTS]++;
    if ((request == 0xA204 || request == 0xA106) && answer->bytes[0] == TMC_STATUS_PENDING)
        bench.counts[COUNT_PENDING]++;
    if (request == 0x0009 || request == 0x010B || (request == 0x0201 && setup[4] == 0x82) || (request == 0xA203 && answer->bytes[0] == TMC_STATUS_FAILED) ||
        (request == 0xA106 && answer->bytes[0] == TMC_STATUS_SUCCESS))
        traffic_stops_reading(&bench.traffic);
    if (request == 0xA201 || request == 0xA105 || request == 0x0009 || request == 0x010B || ((request == 0x0201 || request == 0x0203) && setup[4] == 0x01))
        traffic_gives_up(&bench.traffic);
}

/* The device that works ahead has a packet of Bulk-IN loaded: the next poll of the other one would be answered with it. */
static bool is_loaded(void)
{
    const struct tmc_unit *unit = port_unit();

    return unit->in_phase == TMC_PHASE_SENDING || (unit->in_phase == TMC_PHASE_ASKED && unit->in_unsent != 0);
}

static void play_setup(void)
{
    struct play play = {.what = PLAY_EVENT, .event = EVENT_SETUP, .length = 8};
    struct wire_answer ahead, asks;
    bool was_loaded = is_loaded();

    traffic_setup(&bench.traffic, play.packet);
    ahead = ahead_plays(&play);
    asks = device_plays(&play);
    if (!is_same(&asks, &ahead))
        fail("a setup packet is answered otherwise", &play, &asks, &ahead);
    note_setup(play.packet, &ahead, was_loaded);
    if (bench.holds && gives_up_sending(play.packet, &ahead)) {
        bench.counts[COUNT_GIVEN_UP]++;
        bench.holds = false;
    }
    try_held();
}

static void play_turn(void)
{
    struct play play = {.what = PLAY_TURN, .temperature = one_in(&bench.traffic.chance, 2) ? 20000 : 25000};

    ahead_plays(&play);
    device_plays(&play);
    try_held();
}

static void play_bus(enum controller_event event)
{
    struct play play = {.what = PLAY_EVENT, .event = event};

    ahead_plays(&play);
    device_plays(&play);
    if (event == EVENT_RESET) {
        bench.is_configured = false;
    }
}

static void configure(void)
{
    struct play play = {.what = PLAY_EVENT, .event = EVENT_SETUP, .length = 8, .packet = {0x00, 9, 1}};

    ahead_plays(&play);
    device_plays(&play);
    bench.is_configured = true;
    bench.holds = false;
    traffic_gives_up(&bench.traffic);
    traffic_stops_reading(&bench.traffic);
}

static void step(void)
{
    uint32_t what = below(&bench.traffic.chance, 100);

    if (!bench.is_configured)
        configure();
    else if (what < 45)
        play_packet();
    else if (what < 65)
        play_while_masked();
    else if (what < 85)
        play_turn();
    else if (what < 99)
        play_setup();
    else if (one_in(&bench.traffic.chance, 4))
        play_bus(EVENT_RESET);
    else if (one_in(&bench.traffic.chance, 3))
        play_bus(EVENT_SUSPEND);
}

static void start_ahead(size_t packet)
{
    int sockets[2];
    pid_t child;

    if (socketpair(AF_UNIX, SOCK_STREAM, 0, sockets) != 0 || (child = fork()) < 0) {
        printf("no second process can be had\n");
        exit(2);
    }
    if (child == 0) {
        close(sockets[0]);
        device_start(CONTROLLER_WORKS_AHEAD, packet);
        device_serve(sockets[1]);
        exit(0);
    }
    close(sockets[1]);
    bench.ahead = sockets[0];
}

static void compare(size_t packet, uint64_t seed, unsigned long count)
{
    memset(&bench, 0, sizeof bench);
    bench.traffic = traffic_from(seed, packet);
    fflush(stdout);
    start_ahead(packet);
    device_start(CONTROLLER_ASKS, packet);
    for (steps = 0; steps < count; steps++)
        step();
    close(bench.ahead);
}

static void tell(size_t packet)
{
    unsigned i;

    for (i = 0; i < COUNTED; i++) {
        printf("  P = %3zu  %9lu  %s\n", packet, bench.counts[i], count_words[i]);
        if (bench.counts[i] == 0) {
            printf("of these there were none: the traffic does not try what it is to try\n");
            exit(1);
        }
    }
}

int main(int count, char **words)
{
    static const size_t packets[] = {TMC_FULL_SPEED, TMC_HIGH_SPEED};
    uint64_t seed = count > 1 ? strtoull(words[1], NULL, 10) : 1;
    unsigned long length = count > 2 ? strtoul(words[2], NULL, 10) : 200000;
    unsigned i;

    for (i = 0; i < 2; i++) {
        compare(packets[i], seed, length);
        tell(packets[i]);
    }
    if (device_left()) {
        printf("a device left the bus\n");
        return 1;
    }
    printf("seed %llu, %lu steps for each packet size: a host can tell the two apart by NAKs, and by faults that are acknowledged, and by nothing else\n",
           (unsigned long long)seed, length);
    return 0;
}
