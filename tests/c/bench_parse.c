/*
 * Times, on the image in the file that is named and a book (token bytes on standard input) in 1,000 slots: parse, and parse to reply 6, which is
 * behind its checks of grammar and tables; read back, and read back to reply 11, which is behind the validity walk, and to reply 5 for an area of
 * a wrong length, which is before it; plain copies of the tree area, and of tables, tree area and work area together. Prints
 * `parse NANOS parse-6 NANOS read-back NANOS read-back-11 NANOS read-back-5 NANOS copy-tree NANOS copy-all NANOS`.
 */
#define _POSIX_C_SOURCE 199309L
#include "kindlesap.h"
#include "timing.h"

#include <stdio.h>
#include <string.h>

enum {
    TREE = KINDLESAP_TREE_SIZE(KINDLESAP_MAX_SLOTS),
    WORK = KINDLESAP_WORK_SIZE(KINDLESAP_MAX_SLOTS),
    ALL = KINDLESAP_TABLES_SIZE + TREE + WORK,
};

static uint8_t image[4096], tokens[1 << 13], tables[KINDLESAP_TABLES_SIZE], tree[TREE], work[WORK], output[1 << 13], reply[KINDLESAP_REPLY_SIZE];
static uint8_t from[ALL], to[ALL];
static size_t image_len, tokens_len;
static int wrong;

static void parse_in(size_t work_len, uint8_t expected)
{
    kindlesap_parse(image, image_len, tables, sizeof tables, tokens, tokens_len, tree, sizeof tree, work, work_len, reply, sizeof reply);
    wrong |= reply[0] != expected;
}

static void read_back_in(size_t tree_len, size_t output_len, uint8_t expected)
{
    kindlesap_read_back(image, image_len, tree, tree_len, output, output_len, reply, sizeof reply);
    wrong |= reply[0] != expected;
}

static void copy(size_t n)
{
    memcpy(to, from, n);
    __asm__ volatile("" : : "r"(to) : "memory");
}

static void parse(void)
{
    parse_in(sizeof work, KINDLESAP_ACCEPTED);
}

static void parse_6(void)
{
    parse_in(0, KINDLESAP_SHORT_WORK);
}

static void read_back(void)
{
    read_back_in(sizeof tree, sizeof output, KINDLESAP_ACCEPTED);
}

static void read_back_11(void)
{
    read_back_in(sizeof tree, 0, KINDLESAP_SHORT_OUTPUT);
}

static void read_back_5(void)
{
    read_back_in(sizeof tree - 1, sizeof output, KINDLESAP_WRONG_TREE);
}

static void copy_tree(void)
{
    copy(TREE);
}

static void copy_all(void)
{
    copy(ALL);
}

int main(int argc, char **argv)
{
    struct timed calls[] = {{parse, 0}, {parse_6, 0}, {read_back, 0}, {read_back_11, 0}, {read_back_5, 0}, {copy_tree, 0}, {copy_all, 0}};
    FILE *file = argc > 1 ? fopen(argv[1], "rb") : NULL;
    if (file == NULL)
        return 1;
    image_len = fread(image, 1, sizeof image, file);
    tokens_len = fread(tokens, 1, sizeof tokens, stdin);
    kindlesap_prepare(image, image_len, tables, sizeof tables, reply, sizeof reply);
    timing(calls, 7, 40, 20);
    printf("parse %.0f parse-6 %.0f read-back %.0f read-back-11 %.0f read-back-5 %.0f copy-tree %.0f copy-all %.0f\n", calls[0].nanos,
           calls[1].nanos, calls[2].nanos, calls[3].nanos, calls[4].nanos, calls[5].nanos, calls[6].nanos);
    return wrong || memcmp(output, tokens, tokens_len) != 0;
}
