#include "samples.h"

#include "records.h"

#include <stdio.h>
#include <stdlib.h>

static uint8_t *whole_file(const char *path, size_t *len)
{
    FILE *f = fopen(path, "rb");
    if (f == NULL || fseek(f, 0, SEEK_END) != 0) {
        perror(path);
        exit(2);
    }
    *len = (size_t)ftell(f);
    rewind(f);
    uint8_t *bytes = malloc(*len + 1);
    if (bytes == NULL || fread(bytes, 1, *len, f) != *len) {
        perror(path);
        exit(2);
    }
    fclose(f);
    return bytes;
}

void load_samples(samples *s, const char *folder, const char *name)
{
    char path[4096];
    size_t len, at = 0;
    if (snprintf(path, sizeof path, "%s/%s", folder, name) >= (int)sizeof path) {
        exit(2);
    }
    const uint8_t *all = whole_file(path, &len);
    s->count = 0;
    while (at + 4 <= len && s->count < MOST_SAMPLES) {
        size_t one = four_at(all, at);
        s->bytes[s->count] = all + at + 4;
        s->lens[s->count] = one;
        s->count++;
        at += 4 + one;
    }
    if (s->count == 0 || at != len) {
        fprintf(stderr, "%s holds no samples\n", path);
        exit(2);
    }
}
