#include "lent.h"

#include <string.h>

#ifdef __SANITIZE_ADDRESS__
#include <sanitizer/asan_interface.h>
#else
#define ASAN_POISON_MEMORY_REGION(start, size) ((void)(start), (void)(size))
#define ASAN_UNPOISON_MEMORY_REGION(start, size) ((void)(start), (void)(size))
#endif

/* Neither 0 nor 0xFF, nor any byte that a step writes often. */
#define GUARD_BYTE 0xA5

/* Right behind the buffer, where the guard bytes begin; behind those the room is not used. */
static uint8_t *end_of(struct lent *lent)
{
    return lent->room + lent->start + lent->length;
}

static size_t room_behind(const struct lent *lent)
{
    return sizeof lent->room - lent->start - lent->length;
}

uint8_t *lend(struct lent *lent, const uint8_t *bytes, size_t length, size_t shift)
{
    lent->start = GUARD_SIZE + shift;
    lent->length = length;
    memset(lent->room, GUARD_BYTE, lent->start);
    memset(end_of(lent), GUARD_BYTE, GUARD_SIZE);
    if (length != 0) {
        memcpy(lent->before, bytes, length);
        memcpy(lent->room + lent->start, bytes, length);
    }
    ASAN_POISON_MEMORY_REGION(end_of(lent), room_behind(lent));
    return lent->room + lent->start;
}

/* Whether each of the bytes is a guard byte: the first one is, and each equals the next. */
static bool are_guards(const uint8_t *bytes, size_t count)
{
    return bytes[0] == GUARD_BYTE && memcmp(bytes, bytes + 1, count - 1) == 0;
}

bool take_back(struct lent *lent)
{
    ASAN_UNPOISON_MEMORY_REGION(end_of(lent), room_behind(lent));
    return are_guards(lent->room, lent->start) && are_guards(end_of(lent), GUARD_SIZE);
}

bool is_unchanged(const struct lent *lent)
{
    return memcmp(lent->room + lent->start, lent->before, lent->length) == 0;
}

bool are_same(const struct lent *one, const struct lent *other)
{
    return memcmp(bytes_of(one), bytes_of(other), one->length) == 0;
}

const uint8_t *bytes_of(const struct lent *lent)
{
    return lent->room + lent->start;
}
