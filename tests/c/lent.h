/* Memory to lend, and whether it is as it was lent. Four areas, each between two pages that cannot be touched: what is lent stands directly after the one or directly
 * before the other, with canaries on its other side. On the heap instead, for a checker of memory that watches blocks, each is a block of its own size. */
#ifndef LENT_H
#define LENT_H

#include <stdbool.h>
#include <stddef.h>
#include <stdint.h>

enum { AREAS = 4 };

typedef struct {
    uint8_t *bytes; /* null where nothing is lent, on the heap and of no length */
    size_t len;
    bool low;       /* directly after a page that cannot be touched, else directly before one */
    uint8_t *saved; /* a copy of what was lent */
} lent;

extern lent areas[AREAS];
extern bool on_heap;

/* Areas of so many bytes. */
void make_areas(size_t size);
/* Lends a copy of the bytes in an area. */
uint8_t *lend(unsigned area, const void *bytes, size_t len, bool low);
/* Everything from an offset on, and the canaries, are as they were lent. */
bool kept_from(unsigned area, size_t offset);
bool kept(unsigned area);
/* So many bytes of zeros, of which few can be touched; null where they cannot be had, as on the heap. */
void *vast(size_t len);

#endif
