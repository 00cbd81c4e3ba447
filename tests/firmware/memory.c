/* memcpy, memmove and memset, for machines that come without a C library: by words of 8 bytes where all is aligned to them. */
#include <stddef.h>
#include <stdint.h>

typedef uint64_t __attribute__((may_alias)) word;

void *memcpy(void *to, const void *from, size_t length);
void *memmove(void *to, const void *from, size_t length);
void *memset(void *to, int byte, size_t length);

void *memcpy(void *to, const void *from, size_t length)
{
    size_t place = 0;
    if (((uintptr_t)to | (uintptr_t)from) % sizeof(word) == 0)
        for (; place + sizeof(word) <= length; place += sizeof(word))
            *(word *)((uint8_t *)to + place) = *(const word *)((const uint8_t *)from + place);
    for (; place < length; place++)
        ((uint8_t *)to)[place] = ((const uint8_t *)from)[place];
    return to;
}

void *memmove(void *to, const void *from, size_t length)
{
    if ((uintptr_t)to < (uintptr_t)from)
        return memcpy(to, from, length);
    for (size_t place = length; place > 0; place--)
        ((uint8_t *)to)[place - 1] = ((const uint8_t *)from)[place - 1];
    return to;
}

void *memset(void *to, int byte, size_t length)
{
    const word eight = (uint8_t)byte * UINT64_C(0x0101010101010101);
    size_t place = 0;
    if ((uintptr_t)to % sizeof(word) == 0)
        for (; place + sizeof(word) <= length; place += sizeof(word))
            *(word *)((uint8_t *)to + place) = eight;
    for (; place < length; place++)
        ((uint8_t *)to)[place] = (uint8_t)byte;
    return to;
}
