/* Calls the library as an editor would: each reply, buffers of length 0, a short and a long reply buffer, and what a refusal leaves alone. */
#include "check.h"
#include "kindlesap.h"

#include <stdio.h>
#include <string.h>

static uint8_t tables[KINDLESAP_TABLES_SIZE + 1];
static uint8_t reply[64];

static uint64_t field(size_t at, size_t size)
{
    return number_at(reply, at, size);
}

/* Prepares into tables filled with 0xAA; the reply's number, with its place in *place. */
static unsigned prepare(const uint8_t *image, size_t n, size_t tables_len, uint64_t *place)
{
    memset(tables, 0xAA, sizeof tables);
    memset(reply, 0xBB, sizeof reply);
    kindlesap_prepare(image, n, tables, tables_len, reply, sizeof reply);
    *place = field(4, 8);
    expect(all(reply + 12, 20, 0), "expected set and counts are 0");
    expect(all(reply + KINDLESAP_REPLY_SIZE, sizeof reply - KINDLESAP_REPLY_SIZE, 0xBB), "bytes beyond the reply stay");
    return (unsigned)field(0, 4);
}

static void refused(const uint8_t *image, size_t n, size_t tables_len, unsigned number, uint64_t place, const char *what)
{
    uint64_t at;
    unsigned got = prepare(image, n, tables_len, &at);
    expect(got == number && at == place, what);
    expect(all(tables, sizeof tables, 0xAA), "a refusal leaves the tables");
}

static unsigned break_point(unsigned m, unsigned n, unsigned a)
{
    return tables[1024 + ((m - 6) * 32 + (n - 6)) * 32 + a];
}

int main(void)
{
    uint64_t place;
    uint8_t image[64];
    size_t predictions = 0, points = 0, errors = 0;

    expect(prepare(reference, sizeof reference, KINDLESAP_TABLES_SIZE, &place) == KINDLESAP_ACCEPTED && place == 0, "the reference grammar is accepted");
    for (size_t i = 0; i < 1024; i++)
        predictions += tables[i] != 0;
    for (size_t i = 1024; i < KINDLESAP_TABLES_SIZE; i++) {
        points += tables[i] != 0;
        errors += tables[i] == 255;
    }
    expect(predictions == 9, "example A: nine predictions");
    expect(points == 25 && errors == 17, "example A: 25 break points are not 0, of which 17 are 255");
    expect(break_point(9, 10, 4) == 10, "example B: [Rest, Bar, 4] is 10");
    expect(break_point(7, 6, 1) == 7, "example B: [Rule, Book, 1] is 7");
    expect(break_point(8, 9, 3) == 255, "example B: [List, Rest, 3] is 255");
    expect(break_point(8, 10, 2) == 0, "example B: [List, Bar, 2] is 0");
    expect(tables[KINDLESAP_TABLES_SIZE] == 0xAA, "nothing is written beyond the tables");

    refused(reference, 48, KINDLESAP_TABLES_SIZE, KINDLESAP_BAD_GRAMMAR, 45, "example L: the first 48 bytes");
    memcpy(image, reference, sizeof reference);
    image[3] = 6;
    refused(image, sizeof reference, KINDLESAP_TABLES_SIZE, KINDLESAP_USELESS_SYMBOL, 11, "example L: n = 6");
    memcpy(image, reference, sizeof reference);
    memcpy(image + sizeof reference, "\x47\x50\x0A\x01\x05", 5);
    refused(image, sizeof reference + 5, KINDLESAP_TABLES_SIZE, KINDLESAP_NOT_LL1, 10, "example L: a production more");
    refused(reference, sizeof reference, KINDLESAP_TABLES_SIZE - 1, KINDLESAP_WRONG_TABLES, 0, "tables too short");
    refused(reference, sizeof reference, KINDLESAP_TABLES_SIZE + 1, KINDLESAP_WRONG_TABLES, 0, "tables too long");
    refused(reference, sizeof reference, 0, KINDLESAP_WRONG_TABLES, 0, "no tables");
    refused(reference, 0, KINDLESAP_TABLES_SIZE, KINDLESAP_BAD_GRAMMAR, 0, "an empty image");

    kindlesap_prepare(NULL, 0, NULL, 0, NULL, 0);
    expect(1, "NULL with length 0");
    memset(reply, 0xBB, sizeof reply);
    kindlesap_prepare(reference, 48, NULL, 0, reply, 6);
    expect(field(0, 4) == 1 && reply[4] == 45 && reply[5] == 0 && all(reply + 6, sizeof reply - 6, 0xBB), "a short reply buffer gets the first bytes");

    printf("%d passed, %d failed\n", passed, failed);
    return failed != 0;
}
