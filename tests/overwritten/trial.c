#include "trial.h"

#include "../shared/show.h"
#include "oracle.h"

#include <stdio.h>
#include <stdlib.h>
#include <string.h>

#define BESIDE 64u /* bytes watched before and behind what is lent */

/* Memory to lend, with watched bytes on both sides: those behind begin where the lent ones end. */
struct lent {
    uint8_t *bytes; /* what is lent; null until the first trial */
    size_t length;
    uint8_t beside; /* what the bytes on both sides hold */
};

static struct lent lent_unit, lent_input, lent_buffer;

static uint8_t *memory(size_t length)
{
    uint8_t *bytes = malloc(length);

    if (bytes == NULL) {
        fprintf(stderr, "overwritten: there is no memory\n");
        exit(2);
    }
    return bytes;
}

void trials_start(struct trials *trials)
{
    memset(trials, 0, sizeof *trials);
    /* A unit stands at an even address, and needs no more: here at one that is no multiple of four. */
    lent_unit.bytes = memory(2 * BESIDE + sizeof(struct tmc_unit) + 2) + BESIDE + 2;
    lent_input.bytes = memory(2 * BESIDE + LONGEST) + BESIDE;
    lent_buffer.bytes = memory(2 * BESIDE + LONGEST) + BESIDE;
}

static void lend(struct lent *lent, size_t length, uint8_t beside)
{
    lent->length = length;
    lent->beside = beside;
    memset(lent->bytes - BESIDE, beside, BESIDE);
    memset(lent->bytes + length, beside, BESIDE);
}

static bool beside_is_whole(const struct lent *lent)
{
    uint8_t watched[BESIDE];

    memset(watched, lent->beside, BESIDE);
    return memcmp(lent->bytes - BESIDE, watched, BESIDE) == 0 && memcmp(lent->bytes + lent->length, watched, BESIDE) == 0;
}

/* What is shown of a difference. */

static void show_beside(const char *name, const struct lent *lent)
{
    if (!beside_is_whole(lent))
        printf("  a byte beside the %s is written\n", name);
}

struct outcome {
    struct tmc_unit unit;
    struct tmc_answer answer;
    uint8_t buffer[LONGEST];
};

static void show(const struct tmc_unit *before, const struct call *call, const struct outcome *right, struct tmc_answer answer)
{
    struct tmc_unit is;

    memcpy(&is, lent_unit.bytes, sizeof is);
    printf("DIFFERENCE in tmc_%s, value %u, room %zu\n", kind_names[call->kind], call->value, call->room);
    show_bytes("reads", call->bytes, call->length);
    show_unit("unit before:", before);
    show_answer("the library", answer);
    show_answer("plain.c    ", right->answer);
    show_unit("unit after, the library:", &is);
    show_unit("unit after, plain.c:", &right->unit);
    show_difference("unit", lent_unit.bytes, (const uint8_t *)&right->unit, sizeof is);
    show_difference("buffer", lent_buffer.bytes, right->buffer, call->room);
    show_difference("what the call reads", lent_input.bytes, call->bytes, call->length);
    show_beside("unit", &lent_unit);
    show_beside("bytes that it reads", &lent_input);
    show_beside("buffer", &lent_buffer);
}

static bool is_right(const struct call *call, const struct outcome *right, struct tmc_answer answer)
{
    return answer.number == right->answer.number && answer.tells == right->answer.tells && answer.length == right->answer.length &&
           memcmp(lent_unit.bytes, &right->unit, sizeof right->unit) == 0 && memcmp(lent_buffer.bytes, right->buffer, call->room) == 0 &&
           memcmp(lent_input.bytes, call->bytes, call->length) == 0 && beside_is_whole(&lent_unit) && beside_is_whole(&lent_input) &&
           beside_is_whole(&lent_buffer);
}

struct tmc_answer trial(struct trials *trials, const struct tmc_unit *before, const struct call *call, struct tmc_unit *after)
{
    static uint8_t beside; /* another value for each trial */
    static struct outcome right;
    struct tmc_answer answer;

    beside = (uint8_t)(beside * 5u + 1u);
    lend(&lent_unit, sizeof *before, beside);
    lend(&lent_input, call->length, beside);
    lend(&lent_buffer, call->room, beside);
    memcpy(lent_unit.bytes, before, sizeof *before);
    memcpy(lent_input.bytes, call->bytes, call->length);
    memset(lent_buffer.bytes, ~beside & 0xFF, call->room);

    memcpy(&right.unit, before, sizeof *before);
    memset(right.buffer, ~beside & 0xFF, call->room);
    right.answer = expected(&right.unit, call, right.buffer);

    answer = perform((struct tmc_unit *)(void *)lent_unit.bytes, call, lent_input.bytes, lent_buffer.bytes);
    if (!is_right(call, &right, answer)) {
        show(before, call, &right, answer);
        exit(1);
    }
    trials->answered[call->kind][answer.number]++;
    if (after != NULL)
        memcpy(after, lent_unit.bytes, sizeof *after);
    return answer;
}
