/* Is the answer 1, or the right one, whatever was written over the unit? Live units are reached by traffic, overwritten in many ways, and
   called. Each answer, the unit and the buffer after it are compared with bench/plain.c, and no byte beside what was lent may change. */
#include "../shared/asked.h"
#include "../shared/overwrite.h"
#include "trial.h"

#include <stdio.h>

#define VARIANTS 12       /* of each call, made for a live unit */
#define UNITS_A_ROUND 8   /* for each packet size */
#define FEWEST_UNITS 300  /* live, and no two alike */

/* What a live unit shows. */
enum mark {
    IS_UNCONFIGURED, OUT_OPEN, PART_HELD, MESSAGE_READY, OUT_HALTED, IN_HALTED, IN_ASKED, IN_SENDING, IN_OWED, REPLY_WHOLE, REPLY_IN_PART,
    INTERRUPT_HALTED, SERVICE_WAITS, STATUS_WAITS, SERVICE_KEPT, IN_ABORT_OUT, IN_ABORT_IN, IN_CLEAR, IN_LOCS, IN_REMS, IN_LWLS, IN_RWLS,
    MARKS
};

static const char *const mark_names[MARKS] = {
    "unconfigured", "OUT transfer open", "message in part", "message ready", "Bulk-OUT halted", "Bulk-IN halted", "IN transfer asked",
    "IN transfer on its way", "empty packet owed", "whole reply", "reply in part", "Interrupt-IN halted", "service request waits",
    "status byte waits", "service request kept", "abort-OUT", "abort-IN", "clear", "LOCS", "REMS", "LWLS", "RWLS"
};

/* The live units that were met, by their small state. */
#define PLACES 65536u
struct met {
    uint64_t digests[PLACES]; /* 0: none here */
    unsigned units;
    unsigned marks[MARKS];
};

struct test {
    struct chance chance;
    struct trials trials;
    struct met met;
    uint64_t overwritten; /* units that were called after bytes of them were written over */
    uint64_t still_sound; /* and that were not answered 1 */
    struct tmc_unit live;
    struct call calls[KINDS][VARIANTS];
    unsigned turn; /* which call and variant is next */
};

/* Live units. */

static uint64_t digest(const struct tmc_unit *unit)
{
    const uint8_t *bytes = (const uint8_t *)unit + STATE_BEGINS;
    uint64_t sum = UINT64_C(14695981039346656037);
    size_t i;

    for (i = 0; i < STATE_BYTES; i++)
        sum = (sum ^ bytes[i]) * UINT64_C(1099511628211);
    return sum == 0 ? 1 : sum;
}

static bool shows(const struct tmc_unit *unit, enum mark mark)
{
    switch (mark) {
    case IS_UNCONFIGURED:
        return !unit->configured;
    case OUT_OPEN:
        return unit->out_left != 0;
    case PART_HELD:
        return unit->out_held != 0 && !unit->out_ready;
    case MESSAGE_READY:
        return unit->out_ready;
    case OUT_HALTED:
        return unit->out_halted;
    case IN_HALTED:
        return unit->in_halted;
    case IN_ASKED:
        return unit->in_phase == TMC_PHASE_ASKED;
    case IN_SENDING:
        return unit->in_phase == TMC_PHASE_SENDING;
    case IN_OWED:
        return unit->in_phase == TMC_PHASE_OWED;
    case REPLY_WHOLE:
        return unit->in_unsent != 0 && unit->in_at == 0;
    case REPLY_IN_PART:
        return unit->in_unsent != 0 && unit->in_at != 0;
    case INTERRUPT_HALTED:
        return unit->interrupt_halted;
    case SERVICE_WAITS:
        return unit->notify1 == 0x81;
    case STATUS_WAITS:
        return unit->notify1 > 0x81;
    case SERVICE_KEPT:
        return (unit->status & 0x40) != 0;
    case IN_ABORT_OUT:
    case IN_ABORT_IN:
    case IN_CLEAR:
        return unit->split == (unsigned)(mark - IN_ABORT_OUT) + TMC_SPLIT_ABORT_OUT;
    default:
        return unit->remote == (unsigned)(mark - IN_LOCS);
    }
}

/* Whether this unit is met for the first time. */
static bool is_new(struct met *met, const struct tmc_unit *unit)
{
    uint64_t sum = digest(unit);
    size_t place = sum % PLACES;
    unsigned mark;

    if (met->units == PLACES / 2)
        return true; /* enough are told apart; the others are overwritten all the same */
    while (met->digests[place] != 0) {
        if (met->digests[place] == sum)
            return false;
        place = (place + 1) % PLACES;
    }
    met->digests[place] = sum;
    met->units++;
    for (mark = 0; mark < MARKS; mark++)
        met->marks[mark] += shows(unit, (enum mark)mark);
    return true;
}

/* Traffic on the live unit until it is one that was not met yet. For a while, only one that shows what is wanted will do. */
static void go_on(struct test *test)
{
    static struct call call;
    bool any = one_in(&test->chance, 3);
    enum mark wanted = (enum mark)below(&test->chance, MARKS);
    unsigned steps = 0, first = 1 + below(&test->chance, 12);

    do {
        make_traffic(&test->chance, &test->live, &call);
        trial(&test->trials, &test->live, &call, &test->live);
        steps++;
    } while (steps < first || (!any && steps < 400 && !shows(&test->live, wanted)) || !is_new(&test->met, &test->live));
}

/* Overwritten units. */

static void try_one(struct test *test, const struct tmc_unit *unit, enum kind kind)
{
    struct tmc_answer answer = trial(&test->trials, unit, &test->calls[kind][test->turn++ % VARIANTS], NULL);

    test->overwritten++;
    test->still_sound += answer.number != TMC_NUMBER_UNSOUND;
}

static void try_all(struct test *test, const struct tmc_unit *unit)
{
    unsigned kind;

    for (kind = 0; kind < KINDS; kind++)
        try_one(test, unit, (enum kind)kind);
}

/* Every value of every byte of the state, each before one call; which one differs from unit to unit. */
static void each_byte(struct test *test)
{
    unsigned first = below(&test->chance, KINDS);
    struct tmc_unit unit = test->live;
    uint8_t *state = (uint8_t *)&unit + STATE_BEGINS;
    unsigned value;
    size_t i;

    for (i = 0; i < STATE_BYTES; i++) {
        uint8_t was = state[i];
        for (value = 0; value < 256; value++) {
            state[i] = (uint8_t)value;
            try_one(test, &unit, (enum kind)((first + i + value) % KINDS));
        }
        state[i] = was;
    }
}

static void each_number(struct test *test)
{
    unsigned field, which;

    for (field = 0; field < NUMBER_FIELDS; field++) {
        for (which = 0; which < LIMITS; which++) {
            struct tmc_unit unit = test->live;
            set_number(&unit, field, limit(which, &test->live));
            try_all(test, &unit);
        }
    }
}

/* Every first byte of a packet of Interrupt-IN, with limits of what stands beside it, each before one call. */
static void each_packet(struct test *test)
{
    unsigned first = below(&test->chance, KINDS);
    unsigned which;

    for (which = 0; which < PACKETS; which++) {
        struct tmc_unit unit = test->live;
        set_packet(&unit, which);
        try_one(test, &unit, (enum kind)((first + which) % KINDS));
    }
}

/* Every byte of both stores, another value in it before one call: no call may take that for a fault. */
static void each_store_byte(struct test *test)
{
    unsigned first = below(&test->chance, KINDS);
    struct tmc_unit unit = test->live;
    uint8_t *stores = (uint8_t *)&unit;
    size_t i;

    for (i = 0; i < STATE_BEGINS; i++) {
        uint8_t was = stores[i];
        stores[i] = (uint8_t)(was + 1 + below(&test->chance, 255));
        try_one(test, &unit, (enum kind)((first + i) % KINDS));
        stores[i] = was;
    }
}

static void several_fields(struct test *test)
{
    unsigned i;

    for (i = 0; i < 160; i++) {
        struct tmc_unit unit = test->live;
        overwrite_some(&test->chance, &unit, &test->live);
        try_all(test, &unit);
    }
}

static void plausible_units(struct test *test)
{
    unsigned i;

    for (i = 0; i < 120; i++) {
        struct tmc_unit unit = test->live;
        overwrite_plausibly(&test->chance, &unit);
        try_all(test, &unit);
        if (one_in(&test->chance, 2)) {
            overwrite_number(&test->chance, &unit, &unit);
            try_all(test, &unit);
        }
    }
}

/* All bytes at random: of the state, and then of the stores too. */
static void random_bytes(struct test *test)
{
    unsigned i;

    for (i = 0; i < 24; i++) {
        struct tmc_unit unit = test->live;
        fill(&test->chance, (uint8_t *)&unit + STATE_BEGINS, STATE_BYTES);
        try_all(test, &unit);
        if (i % 4 == 0) {
            fill(&test->chance, (uint8_t *)&unit, STATE_BEGINS);
            try_all(test, &unit);
        }
    }
}

static void overwrite(struct test *test)
{
    unsigned kind, variant;

    for (kind = 0; kind < KINDS; kind++)
        for (variant = 0; variant < VARIANTS; variant++)
            make_call(&test->chance, (enum kind)kind, &test->live, &test->calls[kind][variant]);
    each_byte(test);
    each_number(test);
    each_packet(test);
    each_store_byte(test);
    several_fields(test);
    plausible_units(test);
    random_bytes(test);
}

static void play_round(struct test *test, uint16_t packet)
{
    static struct call power_on;
    unsigned i;

    power_on.kind = POWER_ON;
    power_on.value = packet;
    fill(&test->chance, (uint8_t *)&test->live, sizeof test->live);
    trial(&test->trials, &test->live, &power_on, &test->live);
    for (i = 0; i < UNITS_A_ROUND; i++) {
        go_on(test);
        overwrite(test);
    }
}

/* The report. */

/* Says which numbers came, and whether each that can come did. */
static bool report_numbers(const struct trials *trials)
{
    bool all_came = true;
    unsigned kind, number;

    printf("answers:");
    for (kind = 0; kind < KINDS; kind++)
        printf(" %*s", NAME_WIDTH, kind_names[kind]);
    printf("\n");
    for (number = 0; number < NUMBERS; number++) {
        printf("%7u ", number);
        for (kind = 0; kind < KINDS; kind++) {
            if (can_come((enum kind)kind, number))
                printf(" %*llu", NAME_WIDTH, (unsigned long long)trials->answered[kind][number]);
            else
                printf(" %*s", NAME_WIDTH, ".");
            all_came = all_came && (!can_come((enum kind)kind, number) || trials->answered[kind][number] != 0);
        }
        printf("\n");
    }
    if (!all_came)
        printf("FAILED: a number that can come never came (0 in the table).\n");
    return all_came;
}

static bool report_live(const struct met *met)
{
    bool all_met = true;
    unsigned mark;

    printf("%u live units, no two alike:", met->units);
    for (mark = 0; mark < MARKS; mark++) {
        printf("%s %s %u", mark == 0 ? "" : ",", mark_names[mark], met->marks[mark]);
        all_met = all_met && met->marks[mark] != 0;
    }
    printf("\n");
    if (!all_met)
        printf("FAILED: a kind of live unit was never met.\n");
    if (met->units < FEWEST_UNITS)
        printf("FAILED: too few live units; %u are asked for, which 20 rounds give.\n", FEWEST_UNITS);
    return all_met && met->units >= FEWEST_UNITS;
}

static uint64_t calls_of(const struct trials *trials)
{
    uint64_t calls = 0;
    unsigned kind, number;

    for (kind = 0; kind < KINDS; kind++)
        for (number = 0; number < NUMBERS; number++)
            calls += trials->answered[kind][number];
    return calls;
}

static bool report(const struct test *test)
{
    bool live = report_live(&test->met);
    bool numbers = report_numbers(&test->trials);

    printf("%llu calls, %llu of them on overwritten units, of which %llu were not answered 1.\n",
           (unsigned long long)calls_of(&test->trials), (unsigned long long)test->overwritten, (unsigned long long)test->still_sound);
    if (live && numbers)
        printf("Every answer, unit and buffer is that of bench/plain.c; no byte beside what was lent was written.\n");
    return live && numbers;
}

int main(int count, char **words)
{
    static struct test test;
    struct asked asked = {1, 25};
    unsigned long round;

    if (!read_asked(count, words, &asked)) {
        fprintf(stderr, "usage: overwritten [SEED [ROUNDS]]\n");
        return 2;
    }
    test.chance = chance_from(asked.seed);
    trials_start(&test.trials);
    for (round = 0; round < asked.rounds; round++) {
        play_round(&test, TMC_FULL_SPEED);
        play_round(&test, TMC_HIGH_SPEED);
    }
    printf("seed %lu, %lu rounds\n", asked.seed, asked.rounds);
    return report(&test) ? 0 : 1;
}
