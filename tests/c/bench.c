/*
 * Times, on an image (standard input): prepare, and prepare to reply 4; parse to reply 5, which is behind the check of the lent tables, and to
 * reply 4, which is before it; a plain copy of the tables. Prints `prepare NANOS prepare-4 NANOS parse-5 NANOS parse-4 NANOS copy NANOS`.
 */
#define _POSIX_C_SOURCE 199309L
#include "kindlesap.h"
#include "timing.h"

#include <stdio.h>
#include <string.h>

static uint8_t image[4096], tables[KINDLESAP_TABLES_SIZE], other[KINDLESAP_TABLES_SIZE], reply[KINDLESAP_REPLY_SIZE];
static size_t length;
static int wrong;

static void prepare_in(size_t tables_len, uint8_t expected)
{
    kindlesap_prepare(image, length, tables, tables_len, reply, sizeof reply);
    wrong |= reply[0] != expected;
}

static void parse_in(size_t tables_len, uint8_t expected)
{
    kindlesap_parse(image, length, tables, tables_len, NULL, 0, NULL, 0, NULL, 0, reply, sizeof reply);
    wrong |= reply[0] != expected;
}

static void prepare(void)
{
    prepare_in(sizeof tables, KINDLESAP_ACCEPTED);
}

static void prepare_4(void)
{
    prepare_in(0, KINDLESAP_WRONG_TABLES);
}

static void parse_5(void)
{
    parse_in(sizeof tables, KINDLESAP_WRONG_TREE);
}

static void parse_4(void)
{
    parse_in(0, KINDLESAP_WRONG_TABLES);
}

static void copy(void)
{
    memcpy(other, tables, sizeof other);
    __asm__ volatile("" : : "r"(other) : "memory");
}

int main(void)
{
    struct timed calls[] = {{prepare, 0}, {prepare_4, 0}, {parse_5, 0}, {parse_4, 0}, {copy, 0}};
    length = fread(image, 1, sizeof image, stdin);
    timing(calls, 5, 40, 20);
    printf("prepare %.0f prepare-4 %.0f parse-5 %.0f parse-4 %.0f copy %.0f\n", calls[0].nanos, calls[1].nanos, calls[2].nanos, calls[3].nanos,
           calls[4].nanos);
    return wrong;
}
