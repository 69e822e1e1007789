/* Memory lent to the face: each slice ends at a page that may not be touched, so that one octet too many ends the run. */
#ifndef LENT_H
#define LENT_H

#include <stddef.h>
#include <stdint.h>

/* Octets that one place holds at most: a multiple of every page's size on x86-64 and on 64-bit Arm. */
#define PLACE 65536

/* A place holds one slice at a time, and a copy of it as it was lent. */
struct place {
    uint8_t *end;  /* the forbidden pages begin here */
    uint8_t *was;  /* the copy */
    size_t octets; /* how many are lent */
};

/* Ends the program with status 1 and a message: where, and what. */
_Noreturn void stop(const char *where, const char *what);

/* Memory of so many octets, all zero. */
void *mapped(size_t octets);

/* A new place. */
struct place new_place(void);

/* Lends a slice: lays the octets at the end of the place, over what was there. Its pointer, or NULL where there are none. */
void *lend(struct place *place, const void *from, size_t octets);

/* Stops where the slice lent is no longer what it was. */
void unchanged(const struct place *place, const char *where);

/* A slice of zeros in a place of its own, lent for the whole run. */
uint8_t *new_octets(size_t count);
uint32_t *new_numbers(size_t count);

/* Makes such a slice read-only from now on: a write to it ends the run. */
void seal(void *slice);

#endif
