/* Does a refusal write nothing? Each call that is refused, and each setup packet that only asks, is made again on a unit in read-only memory;
   a write ends the test. */
#include "../shared/asked.h"
#include "../shared/overwrite.h"
#include "../shared/show.h"
#include "locked.h"

#include <stdio.h>
#include <stdlib.h>
#include <string.h>

#define STEPS 400u      /* of a round */
#define OVERWRITTEN 3u  /* copies of a live unit that a step's call is made on too */
#define UNTOUCHED 0xA5

/* Setup packets that are answered 0 and leave all as it was: always, or with this status. */
#define ANY 0x100u
struct asking {
    const char *name;
    uint8_t type, request;
    unsigned status;
};

static const struct asking askings[] = {
    {"INITIATE_ABORT_BULK_OUT, 80", 0xA2, 1, TMC_STATUS_FAILED},
    {"INITIATE_ABORT_BULK_OUT, 81", 0xA2, 1, TMC_STATUS_TRANSFER_NOT_IN_PROGRESS},
    {"INITIATE_ABORT_BULK_OUT, 83", 0xA2, 1, TMC_STATUS_SPLIT_IN_PROGRESS},
    {"CHECK_ABORT_BULK_OUT_STATUS, 82", 0xA2, 2, TMC_STATUS_SPLIT_NOT_IN_PROGRESS},
    {"INITIATE_ABORT_BULK_IN, 80", 0xA2, 3, TMC_STATUS_FAILED},
    {"INITIATE_ABORT_BULK_IN, 81", 0xA2, 3, TMC_STATUS_TRANSFER_NOT_IN_PROGRESS},
    {"INITIATE_ABORT_BULK_IN, 83", 0xA2, 3, TMC_STATUS_SPLIT_IN_PROGRESS},
    {"CHECK_ABORT_BULK_IN_STATUS, 82", 0xA2, 4, TMC_STATUS_SPLIT_NOT_IN_PROGRESS},
    {"CHECK_ABORT_BULK_IN_STATUS, PENDING", 0xA2, 4, TMC_STATUS_PENDING},
    {"INITIATE_CLEAR, 83", 0xA1, 5, TMC_STATUS_SPLIT_IN_PROGRESS},
    {"CHECK_CLEAR_STATUS, 82", 0xA1, 6, TMC_STATUS_SPLIT_NOT_IN_PROGRESS},
    {"CHECK_CLEAR_STATUS, PENDING", 0xA1, 6, TMC_STATUS_PENDING},
    {"GET_CAPABILITIES", 0xA1, 7, ANY},
    {"INDICATOR_PULSE", 0xA1, 64, ANY},
    {"READ_STATUS_BYTE, 20", 0xA1, 128, TMC_STATUS_INTERRUPT_IN_BUSY},
    {"GET_STATUS", 0x82, 0, ANY},
};
#define ASKINGS (sizeof askings / sizeof askings[0])

struct test {
    unsigned long seed;
    unsigned long step;
    struct chance chance;
    struct tmc_unit live;
    uint64_t calls;
    uint64_t refused[KINDS][NUMBERS];
    uint64_t asked[ASKINGS];
};

/* What a call came to, on a unit that can be written. */
struct outcome {
    struct tmc_answer answer;
    struct tmc_unit unit;
    uint8_t buffer[LONGEST];
};

/* 1 to 5, 15 and 16 leave all unchanged, but for power-on. */
static bool is_refusal(enum kind kind, unsigned number)
{
    return kind != POWER_ON && number != TMC_NUMBER_DONE && (number < TMC_NUMBER_NOT_IN_FOURS || number >= TMC_NUMBER_NO_ROW);
}

/* Which of the askings the call is, as it was answered; ASKINGS where it is none. */
static size_t asking_of(const struct call *call, const struct outcome *outcome)
{
    size_t i;

    if (call->kind != SETUP || outcome->answer.number != TMC_NUMBER_DONE)
        return ASKINGS;
    for (i = 0; i < ASKINGS; i++) {
        const struct asking *it = &askings[i];
        if (call->bytes[0] == it->type && call->bytes[1] == it->request && (it->status == ANY || outcome->buffer[0] == it->status))
            break;
    }
    return i;
}

/* One call. */

static void fail(const struct test *test, const struct tmc_unit *before, const struct call *call, struct tmc_answer answer)
{
    printf("  seed %lu, step %lu: tmc_%s, value %u, room %zu, answered %u\n", test->seed, test->step, kind_names[call->kind], call->value,
           call->room, answer.number);
    show_bytes("reads", call->bytes, call->length);
    show_unit("unit before:", before);
    exit(1);
}

static void call_open(const struct tmc_unit *before, const struct call *call, struct outcome *outcome)
{
    outcome->unit = *before;
    memset(outcome->buffer, UNTOUCHED, sizeof outcome->buffer);
    outcome->answer = perform(&outcome->unit, call, call->bytes, outcome->buffer);
}

static bool is_same(struct tmc_answer one, struct tmc_answer other)
{
    return one.number == other.number && one.tells == other.tells && one.length == other.length;
}

/* The same call once more, on a unit that cannot be written. */
static void again_locked(const struct test *test, const struct tmc_unit *before, const struct call *call, const struct outcome *open)
{
    static uint8_t buffer[LONGEST];
    struct tmc_answer answer = open->answer;
    struct reached reached;

    memset(buffer, UNTOUCHED, sizeof buffer);
    reached = call_locked(before, call, buffer, &answer);
    if (reached.place != NULL)
        printf("FAILED: a call that has to leave the unit alone reaches byte %td of the %s, which faults.\n", reached.byte, reached.place);
    else if (!is_same(answer, open->answer))
        printf("FAILED: the same call on the same unit is answered %u the second time.\n", answer.number);
    else if (memcmp(buffer, open->buffer, sizeof buffer) != 0)
        printf("FAILED: the same call on the same unit fills its buffer in another way the second time.\n");
    else
        return;
    fail(test, before, call, open->answer);
}

static void require_unchanged(const struct test *test, const struct tmc_unit *before, const struct call *call, const struct outcome *outcome)
{
    static uint8_t untouched[LONGEST];
    bool is_asking = outcome->answer.number == TMC_NUMBER_DONE; /* its bytes go into the buffer */

    memset(untouched, UNTOUCHED, sizeof untouched);
    if (memcmp(&outcome->unit, before, sizeof *before) == 0 && (is_asking || memcmp(outcome->buffer, untouched, sizeof untouched) == 0))
        return;
    printf("FAILED: a call that has to leave all as it was changes the unit or its buffer.\n");
    show_difference("unit", (const uint8_t *)&outcome->unit, (const uint8_t *)before, sizeof *before);
    if (!is_asking)
        show_difference("buffer", outcome->buffer, untouched, sizeof untouched);
    fail(test, before, call, outcome->answer);
}

/* Makes the call, and leaves in `outcome` what it came to. */
static void try_call(struct test *test, const struct tmc_unit *before, const struct call *call, struct outcome *outcome)
{
    uint8_t number;
    size_t asking;

    call_open(before, call, outcome);
    test->calls++;
    number = outcome->answer.number;
    asking = asking_of(call, outcome);
    if (number >= NUMBERS || !can_come(call->kind, number)) {
        printf("FAILED: the call is answered with a number that it does not have.\n");
        fail(test, before, call, outcome->answer);
    }
    if (!is_refusal(call->kind, number) && asking == ASKINGS)
        return;
    require_unchanged(test, before, call, outcome);
    again_locked(test, before, call, outcome);
    if (asking == ASKINGS)
        test->refused[call->kind][number]++;
    else
        test->asked[asking]++;
}

/* The calls. */

static void overwrite_somehow(struct chance *chance, struct tmc_unit *unit, const struct tmc_unit *live)
{
    uint8_t *state = (uint8_t *)unit + STATE_BEGINS;

    switch (below(chance, 5)) {
    case 0:
        fill(chance, state + below(chance, STATE_BYTES), 1);
        break;
    case 1:
        overwrite_number(chance, unit, live);
        break;
    case 2:
        overwrite_some(chance, unit, live);
        break;
    case 3:
        overwrite_plausibly(chance, unit);
        break;
    default:
        fill(chance, state, STATE_BYTES);
        break;
    }
}

/* A call on overwritten copies of the live unit, and on the unit itself. */
static void take_step(struct test *test)
{
    static struct call call;
    static struct outcome outcome;
    unsigned i;

    test->step++;
    make_traffic(&test->chance, &test->live, &call);
    for (i = 0; i < OVERWRITTEN; i++) {
        struct tmc_unit unit = test->live;
        overwrite_somehow(&test->chance, &unit, &test->live);
        try_call(test, &unit, &call, &outcome);
    }
    try_call(test, &test->live, &call, &outcome);
    test->live = outcome.unit;
}

static void play_round(struct test *test, uint16_t packet)
{
    unsigned i;

    tmc_power_on(&test->live, packet);
    for (i = 0; i < STEPS; i++)
        take_step(test);
}

/* The report. */

static bool report_refused(const struct test *test)
{
    bool all_met = true;
    unsigned kind, number;

    printf("refused:");
    for (kind = SETUP; kind < KINDS; kind++)
        printf(" %*s", NAME_WIDTH, kind_names[kind]);
    printf("\n");
    for (number = 0; number < NUMBERS; number++) {
        if (!is_refusal(SETUP, number))
            continue;
        printf("%7u ", number);
        for (kind = SETUP; kind < KINDS; kind++) {
            if (can_come((enum kind)kind, number))
                printf(" %*llu", NAME_WIDTH, (unsigned long long)test->refused[kind][number]);
            else
                printf(" %*s", NAME_WIDTH, ".");
            all_met = all_met && (!can_come((enum kind)kind, number) || test->refused[kind][number] != 0);
        }
        printf("\n");
    }
    return all_met;
}

static bool report_asked(const struct test *test)
{
    bool all_met = true;
    size_t i;

    printf("setup packets that are answered 0 and change nothing:\n");
    for (i = 0; i < ASKINGS; i++) {
        printf("%10llu  %s\n", (unsigned long long)test->asked[i], askings[i].name);
        all_met = all_met && test->asked[i] != 0;
    }
    return all_met;
}

static bool report(const struct test *test)
{
    bool refused = report_refused(test);
    bool asked = report_asked(test);

    printf("%llu calls; each that is counted above was made again on a unit in read-only memory.\n", (unsigned long long)test->calls);
    if (refused && asked)
        printf("None of them wrote to the unit, and every refusal left its buffer as it was.\n");
    else
        printf("FAILED: a number that can come never came (0 above); more rounds may meet it.\n");
    return refused && asked;
}

int main(int count, char **words)
{
    static struct test test;
    struct asked asked = {1, 300};
    unsigned long round;

    if (!read_asked(count, words, &asked)) {
        fprintf(stderr, "usage: refusals [SEED [ROUNDS]]\n");
        return 2;
    }
    test.seed = asked.seed;
    test.chance = chance_from(asked.seed);
    locked_start();
    for (round = 0; round < asked.rounds; round++) {
        play_round(&test, TMC_FULL_SPEED);
        play_round(&test, TMC_HIGH_SPEED);
    }
    printf("seed %lu, %lu rounds\n", asked.seed, asked.rounds);
    return report(&test) ? 0 : 1;
}
