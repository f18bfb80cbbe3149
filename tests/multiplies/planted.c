/* Code that multiplies and divides in the ways that there are, for `run --try` to put into a copy of the library. Each function must be named. */
#include <stdint.h>

uint32_t planted_multiply(uint32_t a, uint32_t b) { return a * b; }

uint64_t planted_wide_multiply(uint64_t a, uint64_t b) { return (uint64_t)((unsigned __int128)a * b >> 64); }

uint32_t planted_multiply_by_a_number(uint32_t a) { return a * 1000003; }

uint32_t planted_divide(uint32_t a, uint32_t b) { return a / b; }

int32_t planted_remainder(int32_t a, int32_t b) { return a % b; }

/* The compiler multiplies by the inverse. */
uint32_t planted_divide_by_a_number(uint32_t a) { return a / 10; }

/* The compiler calls a routine of its own. */
unsigned __int128 planted_routine(unsigned __int128 a, unsigned __int128 b) { return a / b; }

double planted_real_multiply(double a, double b) { return a * b; }

double planted_real_divide(double a, double b) { return a / b; }

/* The compiler multiplies several at a time. */
void planted_vectors(uint16_t *restrict a, const uint16_t *restrict b)
{
    for (int i = 0; i < 64; i++)
        a[i] = (uint16_t)(a[i] * b[i]);
}
