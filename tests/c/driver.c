/*
 * The library as a process, for the second program to compare with: cases come on standard input, answers go to standard output. Numbers
 * are 4 bytes, little-endian. The buffers that are written without being sent are filled with the fill byte before the call. A case that
 * cannot be read ends the process.
 *
 * Prepare: 'P', the lengths of image, tables and reply, a fill byte, the image. The answer is: the reply buffer, then 0 if every byte of the
 * tables is still the fill byte, else 1 and the tables.
 *
 * Parse: 'S', one byte that says how the tables come, the lengths of image, tables, tokens, tree, work and reply, a fill byte, the image, the
 * tables, the tokens, the tree. Tables come as bytes (0), or (1) as a number of changes and place (4 bytes) and value (1 byte) of each: then
 * KINDLESAP_TABLES_SIZE fill bytes are prepared for the image, those bytes are changed, and the tables are as much of that as their length
 * says, with fill bytes beyond. The answer is: the reply buffer; 0 if the tree is as it was sent, else 1 and the tree; 1 if image, tables
 * and tokens are as they were, else 0; 1 if every byte of the work area is zero, else 0.
 *
 * Edit: 'E', the place, the number removed, then all that parse has behind its letter. The answer is as for parse.
 *
 * Read back: 'R', the lengths of image, tree, output and reply, a fill byte, the image, the tree. The answer is: the reply buffer; 0 if every
 * byte of the output is still the fill byte, else 1 and the output; 1 if image and tree are as they were, else 0.
 */
#include "kindlesap.h"

#include <stdio.h>
#include <stdlib.h>
#include <string.h>

enum { MOST = 1 << 19 };

/* A buffer of the call, and what it held before. */
struct buffer {
    size_t len;
    uint8_t bytes[MOST], before[MOST];
};

static struct buffer image, tables, tokens, tree, work, output, reply;
static uint8_t fill;

static void take(uint8_t *bytes, size_t n)
{
    if (fread(bytes, 1, n, stdin) != n)
        exit(2);
}

static size_t number(void)
{
    uint8_t b[4];
    take(b, 4);
    return b[0] | (size_t)b[1] << 8 | (size_t)b[2] << 16 | (size_t)b[3] << 24;
}

static void take_length(struct buffer *b)
{
    b->len = number();
    if (b->len > MOST)
        exit(2);
}

static void take_bytes(struct buffer *b)
{
    take(b->bytes, b->len);
    memcpy(b->before, b->bytes, b->len);
}

static void fill_bytes(struct buffer *b)
{
    memset(b->bytes, fill, b->len);
    memcpy(b->before, b->bytes, b->len);
}

static int unchanged(const struct buffer *b)
{
    return memcmp(b->bytes, b->before, b->len) == 0;
}

static int zero(const struct buffer *b)
{
    return b->len == 0 || (b->bytes[0] == 0 && memcmp(b->bytes, b->bytes + 1, b->len - 1) == 0);
}

/* 0 if a buffer is as it was, else 1 and its bytes. */
static void give(const struct buffer *b)
{
    putchar(!unchanged(b));
    if (!unchanged(b))
        fwrite(b->bytes, 1, b->len, stdout);
}

static void give_reply(void)
{
    fwrite(reply.bytes, 1, reply.len, stdout);
}

static void prepare(void)
{
    take_length(&image);
    take_length(&tables);
    take_length(&reply);
    take(&fill, 1);
    take_bytes(&image);
    fill_bytes(&tables);
    fill_bytes(&reply);
    kindlesap_prepare(image.bytes, image.len, tables.bytes, tables.len, reply.bytes, reply.len);
    give_reply();
    give(&tables);
}

/* Prepared tables with some bytes changed. */
static void take_changes(void)
{
    memset(tables.bytes, fill, tables.len > KINDLESAP_TABLES_SIZE ? tables.len : KINDLESAP_TABLES_SIZE);
    kindlesap_prepare(image.bytes, image.len, tables.bytes, KINDLESAP_TABLES_SIZE, NULL, 0);
    for (size_t changes = number(); changes > 0; changes--) {
        size_t place = number();
        if (place >= KINDLESAP_TABLES_SIZE)
            exit(2);
        take(tables.bytes + place, 1);
    }
    memcpy(tables.before, tables.bytes, tables.len);
}

/* What parse and edit are lent. */
static void take_lent(void)
{
    uint8_t by_changes;
    take(&by_changes, 1);
    take_length(&image);
    take_length(&tables);
    take_length(&tokens);
    take_length(&tree);
    take_length(&work);
    take_length(&reply);
    take(&fill, 1);
    take_bytes(&image);
    if (by_changes)
        take_changes();
    else
        take_bytes(&tables);
    take_bytes(&tokens);
    take_bytes(&tree);
    fill_bytes(&work);
    fill_bytes(&reply);
}

/* What parse and edit leave. */
static void give_left(void)
{
    give_reply();
    give(&tree);
    putchar(unchanged(&image) && unchanged(&tables) && unchanged(&tokens));
    putchar(zero(&work));
}

static void parse(void)
{
    take_lent();
    kindlesap_parse(image.bytes, image.len, tables.bytes, tables.len, tokens.bytes, tokens.len, tree.bytes, tree.len, work.bytes, work.len,
                    reply.bytes, reply.len);
    give_left();
}

static void edit(void)
{
    uint32_t place = (uint32_t)number(), removed = (uint32_t)number();
    take_lent();
    kindlesap_edit(image.bytes, image.len, tables.bytes, tables.len, tree.bytes, tree.len, place, removed, tokens.bytes, tokens.len, work.bytes,
                   work.len, reply.bytes, reply.len);
    give_left();
}

static void read_back(void)
{
    take_length(&image);
    take_length(&tree);
    take_length(&output);
    take_length(&reply);
    take(&fill, 1);
    take_bytes(&image);
    take_bytes(&tree);
    fill_bytes(&output);
    fill_bytes(&reply);
    kindlesap_read_back(image.bytes, image.len, tree.bytes, tree.len, output.bytes, output.len, reply.bytes, reply.len);
    give_reply();
    give(&output);
    putchar(unchanged(&image) && unchanged(&tree));
}

int main(void)
{
    int call;
    while ((call = getchar()) != EOF) {
        switch (call) {
        case 'P':
            prepare();
            break;
        case 'S':
            parse();
            break;
        case 'E':
            edit();
            break;
        case 'R':
            read_back();
            break;
        default:
            return 2;
        }
        fflush(stdout);
    }
    return 0;
}
