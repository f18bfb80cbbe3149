/* The memory functions that both sides are linked with, as a small controller has them: a loop over words, then one over bytes. With VECTORS
   memcpy begins with a loop over two vectors of 16 bytes, which is what compilers make of a loop that copies. */
#include <stddef.h>
#include <stdint.h>
#include <string.h>

typedef uint64_t word __attribute__((may_alias, aligned(1)));

#ifdef VECTORS
typedef uint64_t block __attribute__((vector_size(32), may_alias, aligned(1)));
#endif

static inline void *copy_forwards(void *to, const void *from, size_t length)
{
    uint8_t *target = to;
    const uint8_t *source = from;

#ifdef VECTORS
    for (; length >= sizeof(block); length -= sizeof(block)) {
        *(block *)target = *(const block *)source;
        target += sizeof(block);
        source += sizeof(block);
    }
#endif
    for (; length >= sizeof(word); length -= sizeof(word)) {
        *(word *)target = *(const word *)source;
        target += sizeof(word);
        source += sizeof(word);
    }
    for (; length != 0; length--)
        *target++ = *source++;
    return to;
}

static inline void *copy_backwards(void *to, const void *from, size_t length)
{
    uint8_t *target = (uint8_t *)to + length;
    const uint8_t *source = (const uint8_t *)from + length;

    for (; length >= sizeof(word); length -= sizeof(word)) {
        target -= sizeof(word);
        source -= sizeof(word);
        *(word *)target = *(const word *)source;
    }
    for (; length != 0; length--)
        *--target = *--source;
    return to;
}

void *memcpy(void *restrict to, const void *restrict from, size_t length)
{
    return copy_forwards(to, from, length);
}

void *memmove(void *to, const void *from, size_t length)
{
    if ((uintptr_t)to - (uintptr_t)from >= length)
        return copy_forwards(to, from, length);
    return copy_backwards(to, from, length);
}

void *memset(void *to, int value, size_t length)
{
    uint8_t *target = to;
    word repeated = (uint8_t)value * UINT64_C(0x0101010101010101);

    for (; length >= sizeof(word); length -= sizeof(word)) {
        *(word *)target = repeated;
        target += sizeof(word);
    }
    for (; length != 0; length--)
        *target++ = (uint8_t)value;
    return to;
}

int memcmp(const void *left, const void *right, size_t length)
{
    const uint8_t *one = left;
    const uint8_t *other = right;

    for (; length != 0; length--, one++, other++)
        if (*one != *other)
            return *one - *other;
    return 0;
}

/* What compilers call where only equality is asked for. */
int bcmp(const void *left, const void *right, size_t length)
{
    return memcmp(left, right, length);
}
