#include "show.h"

#include <stdio.h>

void show_bytes(const char *name, const uint8_t *bytes, size_t length)
{
    size_t i;

    printf("  %s (%zu)", name, length);
    for (i = 0; i < length && i < 80; i++)
        printf(" %02x", bytes[i]);
    printf(i < length ? " ..\n" : "\n");
}

void show_unit(const char *name, const struct tmc_unit *unit)
{
    printf("  %s packet=%u configured=%u ren=%u remote=%u\n", name, unit->packet, unit->configured, unit->ren, unit->remote);
    printf("    out: held=%u ready=%u halted=%u left=%u got=%u end=%u recent=%u\n", unit->out_held, unit->out_ready, unit->out_halted,
           unit->out_left, unit->out_got, unit->out_end, unit->out_recent);
    printf("    in: at=%u unsent=%u asked=%u left=%u sent=%u phase=%u tag=%u enabled=%u term=%u halted=%u recent=%u\n", unit->in_at,
           unit->in_unsent, unit->in_asked, unit->in_left, unit->in_sent, unit->in_phase, unit->in_tag, unit->in_enabled, unit->in_term,
           unit->in_halted, unit->in_recent);
    printf("    interrupt: status=%02x notify1=%02x notify2=%02x halted=%u\n", unit->status, unit->notify1, unit->notify2,
           unit->interrupt_halted);
    printf("    count=%u split=%u\n", unit->count, unit->split);
}

void show_answer(const char *name, struct tmc_answer answer)
{
    printf("  %s: %u, tells %u, length %zu\n", name, answer.number, answer.tells, answer.length);
}

void show_difference(const char *name, const uint8_t *is, const uint8_t *to_be, size_t length)
{
    size_t i;

    for (i = 0; i < length; i++) {
        if (is[i] != to_be[i]) {
            printf("  %s: byte %zu is %02x, and is to be %02x\n", name, i, is[i], to_be[i]);
            return;
        }
    }
}
