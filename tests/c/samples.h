/* Sample files that the simulator wrote: each after its length in four bytes. */
#ifndef SAMPLES_H
#define SAMPLES_H

#include <stddef.h>
#include <stdint.h>

enum { MOST_SAMPLES = 1024 };

typedef struct {
    const uint8_t *bytes[MOST_SAMPLES];
    size_t lens[MOST_SAMPLES];
    size_t count;
} samples;

/* Ends the program where they cannot be read. */
void load_samples(samples *s, const char *folder, const char *name);

#endif
