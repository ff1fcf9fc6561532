/* For the C tests: the reference grammar's image, counting what holds, and reading bytes. */
#ifndef CHECK_H
#define CHECK_H

#include <stddef.h>
#include <stdint.h>
#include <stdio.h>

static const uint8_t reference[49] = {
    0x47, 0x48, 0x05, 0x05, 0x06, 0x47, 0x50, 0x06, 0x02, 0x07, 0x06, 0x47, 0x50, 0x06, 0x00, 0x47, 0x50, 0x07, 0x04, 0x01, 0x08, 0x0A, 0x05, 0x47, 0x50,
    0x08, 0x02, 0x02, 0x09, 0x47, 0x50, 0x09, 0x02, 0x03, 0x08, 0x47, 0x50, 0x09, 0x00, 0x47, 0x50, 0x0A, 0x02, 0x04, 0x08, 0x47, 0x50, 0x0A, 0x00,
};

static int passed, failed;

static void expect(int holds, const char *what)
{
    if (holds) {
        passed++;
    } else {
        failed++;
        printf("failed: %s\n", what);
    }
}

static uint64_t number_at(const uint8_t *bytes, size_t at, size_t size)
{
    uint64_t v = 0;
    for (size_t i = size; i > 0; i--)
        v = v * 256 + bytes[at + i - 1];
    return v;
}

static int all(const uint8_t *bytes, size_t n, uint8_t value)
{
    for (size_t i = 0; i < n; i++)
        if (bytes[i] != value)
            return 0;
    return 1;
}

#endif
