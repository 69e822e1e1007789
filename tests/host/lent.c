/* Memory lent to the face. */
#include "lent.h"
#include "posix.h"

_Noreturn void stop(const char *where, const char *what)
{
    dprintf(2, "%s: %s\n", where, what);
    exit(1);
}

void *mapped(size_t octets)
{
    void *at = mmap(NULL, octets, PROT_READ | PROT_WRITE, MAP_PRIVATE | MAP_ANONYMOUS, -1, 0);
    if (at == MAP_FAILED)
        stop("mapped", "no memory");
    return at;
}

struct place new_place(void)
{
    uint8_t *at = mapped(3 * PLACE);
    struct place place;
    at += (PLACE - (uintptr_t)at % PLACE) % PLACE;
    place.end = at + PLACE;
    place.was = mapped(PLACE);
    place.octets = 0;
    if (mprotect(place.end, PLACE, PROT_NONE) != 0)
        stop("new_place", "a page cannot be forbidden");
    return place;
}

void *lend(struct place *place, const void *from, size_t octets)
{
    if (octets > PLACE)
        stop("lend", "a slice is too long for its place");
    place->octets = octets;
    if (octets == 0)
        return NULL;
    memcpy(place->was, from, octets);
    return memcpy(place->end - octets, from, octets);
}

void unchanged(const struct place *place, const char *where)
{
    if (memcmp(place->end - place->octets, place->was, place->octets) != 0)
        stop(where, "a slice that is only read has changed");
}

uint8_t *new_octets(size_t count)
{
    if (count > PLACE)
        stop("new_octets", "a slice is too long for its place");
    return new_place().end - count;
}

uint32_t *new_numbers(size_t count)
{
    return (uint32_t *)(void *)new_octets(count * 4);
}

void seal(void *slice)
{
    uint8_t *at = slice;
    if (mprotect(at - (uintptr_t)at % PLACE, PLACE, PROT_READ) != 0)
        stop("seal", "a slice cannot be made read-only");
}
