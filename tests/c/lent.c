#define _GNU_SOURCE
#include "lent.h"

#include <stdio.h>
#include <stdlib.h>
#include <string.h>
#include <sys/mman.h>
#include <unistd.h>

enum { CANARIES = 64, CANARY = 0xC5 };

lent areas[AREAS];
bool on_heap;
static uint8_t *starts[AREAS];
static size_t area_size;

static void *some(void *memory)
{
    if (memory == NULL || memory == MAP_FAILED) {
        perror("memory to lend");
        exit(2);
    }
    return memory;
}

void make_areas(size_t size)
{
    size_t page = (size_t)sysconf(_SC_PAGESIZE);
    area_size = (size + CANARIES + page - 1) / page * page;
    for (unsigned i = 0; i < AREAS; i++) {
        areas[i].saved = some(malloc(size));
        if (!on_heap) {
            uint8_t *all = some(mmap(NULL, area_size + 2 * page, PROT_NONE, MAP_PRIVATE | MAP_ANONYMOUS, -1, 0));
            starts[i] = all + page;
            if (mprotect(starts[i], area_size, PROT_READ | PROT_WRITE) != 0) {
                some(NULL);
            }
        }
    }
}

static uint8_t *canaries(const lent *l)
{
    return l->low ? l->bytes + l->len : l->bytes - CANARIES;
}

static uint8_t *block(lent *l, size_t len)
{
    free(l->bytes);
    return len == 0 ? NULL : some(malloc(len));
}

uint8_t *lend(unsigned area, const void *bytes, size_t len, bool low)
{
    lent *l = &areas[area];
    if (len + CANARIES > area_size) {
        abort();
    }
    l->bytes = on_heap ? block(l, len) : low ? starts[area] : starts[area] + area_size - len;
    l->len = len;
    l->low = low;
    if (len > 0) {
        memcpy(l->bytes, bytes, len);
        memcpy(l->saved, bytes, len);
    }
    if (!on_heap) {
        memset(canaries(l), CANARY, CANARIES);
    }
    return l->bytes;
}

bool kept_from(unsigned area, size_t offset)
{
    const lent *l = &areas[area];
    if (!on_heap) {
        const uint8_t *c = canaries(l);
        for (size_t i = 0; i < CANARIES; i++) {
            if (c[i] != CANARY) {
                return false;
            }
        }
    }
    return offset >= l->len || memcmp(l->bytes + offset, l->saved + offset, l->len - offset) == 0;
}

bool kept(unsigned area)
{
    return kept_from(area, 0);
}

void *vast(size_t len)
{
    void *memory = on_heap ? MAP_FAILED : mmap(NULL, len, PROT_READ | PROT_WRITE, MAP_PRIVATE | MAP_ANONYMOUS | MAP_NORESERVE, -1, 0);
    return memory == MAP_FAILED ? NULL : memory;
}
