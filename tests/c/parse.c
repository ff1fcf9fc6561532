/*
 * Calls parse and read back as an editor would: a book is opened and read back, examples C to F, each reply, buffers of length 0, short and
 * long reply buffers, what a refusal leaves alone, and the work area, which is zero after every parse.
 */
#include "check.h"
#include "kindlesap.h"

#include <stdio.h>
#include <string.h>

enum { TREE = 16 + 16 * KINDLESAP_MAX_SLOTS, WORK = 3 * TREE, TOKENS = 8192 };

static uint8_t image[64], tables[KINDLESAP_TABLES_SIZE + 1], tokens[TOKENS], tree[TREE + 32], work[WORK + 128], output[TOKENS], reply[64];
static uint8_t tree_before[TREE + 32];
static size_t image_len, tables_len, tokens_len, tree_len, work_len, output_len;

static uint64_t field(size_t at, size_t size)
{
    return number_at(reply, at, size);
}

/* Lends the reference grammar, its tables, the tokens of some kinds, and areas for so many slots, full of 0xAA. */
static void lend(const char *kinds, size_t slots)
{
    image_len = sizeof reference;
    memcpy(image, reference, image_len);
    tables_len = KINDLESAP_TABLES_SIZE;
    kindlesap_prepare(image, image_len, tables, tables_len, NULL, 0);
    tokens_len = 0;
    for (size_t i = 0; kinds[i] != 0; i++) {
        const uint8_t token[KINDLESAP_TOKEN_SIZE] = {(uint8_t)(kinds[i] - '0'), (uint8_t)(i + 1), 0, 0, 0x80};
        memcpy(tokens + tokens_len, token, sizeof token);
        tokens_len += sizeof token;
    }
    tree_len = KINDLESAP_TREE_SIZE(slots);
    work_len = KINDLESAP_WORK_SIZE(slots);
    output_len = tokens_len;
    memset(tree, 0xAA, sizeof tree);
}

/* Parses; the reply's number. The work area is full of 0xBB before and zero after, and nothing beyond any buffer is written. */
static unsigned parse(void)
{
    memcpy(tree_before, tree, sizeof tree);
    memset(work, 0xBB, sizeof work);
    memset(reply, 0xBB, sizeof reply);
    kindlesap_parse(image, image_len, tables, tables_len, tokens, tokens_len, tree, tree_len, work, work_len, reply, sizeof reply);
    expect(all(work, work_len, 0), "the work area is zero");
    expect(all(work + work_len, sizeof work - work_len, 0xBB), "bytes beyond the work area stay");
    expect(memcmp(tree + tree_len, tree_before + tree_len, sizeof tree - tree_len) == 0, "bytes beyond the tree stay");
    expect(all(reply + KINDLESAP_REPLY_SIZE, sizeof reply - KINDLESAP_REPLY_SIZE, 0xBB), "bytes beyond the reply stay");
    expect(field(20, 4) == 0 && field(28, 4) == 0, "kept and given up are 0");
    return (unsigned)field(0, 4);
}

/* Reads back into an output full of 0xCC; the reply's number. */
static unsigned read_back(void)
{
    memcpy(tree_before, tree, sizeof tree);
    memset(output, 0xCC, sizeof output);
    memset(reply, 0xBB, sizeof reply);
    kindlesap_read_back(image, image_len, tree, tree_len, output, output_len, reply, sizeof reply);
    expect(memcmp(tree, tree_before, sizeof tree) == 0, "read back leaves the tree");
    expect(all(reply + KINDLESAP_REPLY_SIZE, sizeof reply - KINDLESAP_REPLY_SIZE, 0xBB), "bytes beyond the reply stay");
    expect(field(12, 4) == 0 && all(reply + 20, 12, 0), "expected set, kept, made and given up are 0");
    return (unsigned)field(0, 4);
}

static void parse_accepted(unsigned total, const char *what)
{
    expect(parse() == KINDLESAP_ACCEPTED && field(4, 8) == 0 && field(12, 4) == 0 && field(16, 4) == total && field(24, 4) == total, what);
}

static void parse_refused(unsigned number, uint64_t place, uint32_t expected, const char *what)
{
    expect(parse() == number && field(4, 8) == place && field(12, 4) == expected && all(reply + 16, 16, 0), what);
    expect(memcmp(tree, tree_before, sizeof tree) == 0, "a refusal leaves the tree");
}

static void read_back_accepted(unsigned total, const char *what)
{
    expect(read_back() == KINDLESAP_ACCEPTED && field(4, 8) == 0 && field(16, 4) == total, what);
    expect(memcmp(output, tokens, tokens_len) == 0, "the tokens are those that were parsed");
    expect(all(output + tokens_len, sizeof output - tokens_len, 0xCC), "nothing is written beyond the tokens");
}

static void read_back_refused(unsigned number, uint64_t place, const char *what)
{
    expect(read_back() == number && field(4, 8) == place && field(16, 4) == 0, what);
    expect(all(output, sizeof output, 0xCC), "a refusal leaves the output");
}

/* Whether a slot holds these fields: symbol, production, parent, first child, next sibling. */
static int slot_is(size_t slot, unsigned symbol, unsigned production, unsigned parent, unsigned child, unsigned next)
{
    const uint8_t *s = tree + 16 * slot;
    return s[0] == 0x4E && s[1] == 0x44 && s[2] == symbol && s[3] == production && number_at(s, 4, 2) == parent && number_at(s, 6, 2) == child &&
           number_at(s, 8, 2) == next && number_at(s, 14, 2) == 0;
}

/* Examples C to F, and U's tree slot by slot. */
static void examples(void)
{
    lend("", KINDLESAP_MAX_SLOTS);
    parse_accepted(1, "example C: one node");
    expect(slot_is(1, 6, 2, 0, 0, 0), "example C: production 2");
    expect(memcmp(tree, "\x54\x52\x01\x00\x01\x00\x00\x00\0\0\0\0\0\0\0\0", 16) == 0, "example C: the header");
    expect(all(tree + 32, tree_len - 32, 0), "example C: free slots are zero");
    read_back_accepted(1, "example C is read back");

    lend("125", 9);
    parse_accepted(9, "example D: U with 9 slots");
    expect(memcmp(tree, "\x54\x52\x01\x00\x09\x00\x03\x00\0\0\0\0\0\0\0\0", 16) == 0, "U: the header");
    expect(slot_is(1, 6, 1, 0, 2, 0) && slot_is(2, 7, 3, 1, 3, 9) && slot_is(3, 1, 0, 2, 0, 4), "U: slots 1 to 3");
    expect(slot_is(4, 8, 4, 2, 5, 7) && slot_is(5, 2, 0, 4, 0, 6) && slot_is(6, 9, 6, 4, 0, 0), "U: slots 4 to 6");
    expect(slot_is(7, 10, 8, 2, 0, 8) && slot_is(8, 5, 0, 2, 0, 0) && slot_is(9, 6, 2, 1, 0, 0), "U: slots 7 to 9");
    expect(number_at(tree, 16 * 5 + 10, 4) == 0x80000002 && number_at(tree, 16 * 4 + 10, 4) == 0, "U: tags of leaves alone");
    read_back_accepted(9, "U is read back");
    output_len = 40;
    read_back_accepted(9, "U is read back into a longer output");

    lend("125", 8);
    parse_refused(KINDLESAP_NO_ROOM, 0, 0, "example D: U with 8 slots");
    lend("12", 9);
    parse_refused(KINDLESAP_SYNTAX, 2, 56, "example E: 9 slots");
    lend("12", 8);
    parse_refused(KINDLESAP_NO_ROOM, 0, 0, "example E: 8 slots");
    lend("12424", KINDLESAP_MAX_SLOTS);
    parse_refused(KINDLESAP_SYNTAX, 4, 32, "example F");
}

/* A book that nearly fills the area is opened, then another in its place. */
static void books(void)
{
    char kinds[3 * 124 + 1] = "";
    for (int i = 0; i < 124; i++)
        memcpy(kinds + 3 * i, "125", 4);
    lend(kinds, KINDLESAP_MAX_SLOTS);
    parse_accepted(993, "a book of 124 rules");
    read_back_accepted(993, "a book of 124 rules is read back");
    uint8_t large[TREE];
    memcpy(large, tree, sizeof large);
    lend("132", KINDLESAP_MAX_SLOTS);
    memcpy(tree, large, sizeof large);
    parse_refused(KINDLESAP_SYNTAX, 1, 1 << 2, "a book with a fault leaves the tree before it");
    lend("125", KINDLESAP_MAX_SLOTS);
    memcpy(tree, large, sizeof large);
    parse_accepted(9, "a small book in place of a large one");
    expect(all(tree + 16 * 10, tree_len - 16 * 10, 0), "the slots of the large one are free");
    read_back_accepted(9, "the small book is read back");
}

/* Every other refusal of parse, and their order. */
static void parse_refusals(void)
{
    lend("125", 9);
    image_len = 48;
    parse_refused(KINDLESAP_BAD_GRAMMAR, 45, 0, "parse: the first 48 image bytes");
    image_len = 0;
    parse_refused(KINDLESAP_BAD_GRAMMAR, 0, 0, "parse: an empty image");
    lend("125", 9);
    image[3] = 6;
    parse_refused(KINDLESAP_USELESS_SYMBOL, 11, 0, "parse: n = 6");
    lend("125", 9);
    memcpy(image + image_len, "\x47\x50\x0A\x01\x05", 5);
    image_len += 5;
    parse_refused(KINDLESAP_NOT_LL1, 10, 0, "parse: a production more");

    const size_t lengths[] = {0, 1024, KINDLESAP_TABLES_SIZE - 1, KINDLESAP_TABLES_SIZE + 1};
    for (size_t i = 0; i < 4; i++) {
        lend("125", 9);
        tables_len = lengths[i];
        parse_refused(KINDLESAP_WRONG_TABLES, 0, 0, "parse: tables of another length");
    }
    const size_t places[] = {0, 33, 1023, 1024, KINDLESAP_TABLES_SIZE - 1};
    for (size_t i = 0; i < 5; i++) {
        lend("125", 9);
        tables[places[i]] ^= 1;
        parse_refused(KINDLESAP_WRONG_TABLES, 0, 0, "parse: a bit of the tables changed");
    }

    const size_t areas[] = {0, 1, 15, 16, 17, 31, 159, 161, TREE + 1, TREE + 16};
    for (size_t i = 0; i < 10; i++) {
        lend("125", 9);
        tree_len = areas[i];
        work_len = sizeof work;
        parse_refused(KINDLESAP_WRONG_TREE, 0, 0, "parse: an area of a wrong length");
    }

    const size_t works[] = {0, 1, 160, 479};
    for (size_t i = 0; i < 4; i++) {
        lend("125", 9);
        work_len = works[i];
        parse_refused(KINDLESAP_SHORT_WORK, 480, 0, "parse: work too short");
    }
    lend("125", 9);
    work_len = 500;
    parse_accepted(9, "parse: work longer than needed");

    lend("120", 9);
    parse_refused(KINDLESAP_BAD_TOKEN, 2, 0, "parse: kind 0");
    lend("165", 9);
    parse_refused(KINDLESAP_BAD_TOKEN, 1, 0, "parse: kind t + 1");
    lend("555", 9);
    tokens_len = 14;
    parse_refused(KINDLESAP_BAD_TOKEN, 2, 0, "parse: a cut token comes before syntax");

    lend("9", 9);
    work_len = 0;
    tree_len = 16;
    tables_len = 0;
    parse_refused(KINDLESAP_WRONG_TABLES, 0, 0, "parse: 4 comes before 5");
    tables_len = KINDLESAP_TABLES_SIZE;
    parse_refused(KINDLESAP_WRONG_TREE, 0, 0, "parse: 5 comes before 6");
    tree_len = 32;
    parse_refused(KINDLESAP_SHORT_WORK, 96, 0, "parse: 6 comes before 7");
    work_len = 96;
    parse_refused(KINDLESAP_BAD_TOKEN, 0, 0, "parse: 7 comes before 9");
}

/* Every refusal of read back, and their order. */
static void read_back_refusals(void)
{
    lend("125", 12);
    parse_accepted(9, "U with 12 slots");
    output_len = 14;
    read_back_refused(KINDLESAP_SHORT_OUTPUT, 15, "read back: output one byte short");
    output_len = 0;
    read_back_refused(KINDLESAP_SHORT_OUTPUT, 15, "read back: no output");
    tree[16 * 12] = 1;
    read_back_refused(KINDLESAP_WRONG_TREE, 0, "read back: a free slot that is not zero, before a short output");
    tree[16 * 12] = 0;
    output_len = 15;
    read_back_accepted(9, "read back: the tree is whole again");
    for (size_t at = 0; at < tree_len; at++) {
        size_t slot = at / 16, byte = at % 16;
        if ((slot == 3 || slot == 5 || slot == 8) && byte >= 10 && byte < 14)
            continue;
        tree[at] ^= 0x40;
        expect(read_back() == KINDLESAP_WRONG_TREE, "read back: any byte changed but a leaf's tag");
        tree[at] ^= 0x40;
    }
    tree_len = 16 * 11;
    read_back_accepted(9, "read back: free slots cut off");
    const size_t areas[] = {0, 1, 16, 16 * 9, 16 * 13 - 1, 16 * 13 + 1};
    for (size_t i = 0; i < 6; i++) {
        tree_len = areas[i];
        read_back_refused(KINDLESAP_WRONG_TREE, 0, "read back: an area of a wrong length or cut inside the tree");
    }
    memset(tree, 0, sizeof tree);
    tree_len = TREE;
    read_back_refused(KINDLESAP_WRONG_TREE, 0, "read back: an all-zero area");
    image_len = 48;
    read_back_refused(KINDLESAP_BAD_GRAMMAR, 45, "read back: 1 comes before 5");
    image_len = 5;
    read_back_refused(KINDLESAP_USELESS_SYMBOL, 6, "read back: 2 comes before 5");
    image_len = sizeof reference;
    memcpy(image + image_len, "\x47\x50\x0A\x01\x05", 5);
    image_len += 5;
    read_back_refused(KINDLESAP_NOT_LL1, 10, "read back: 3 comes before 5");
}

/* Slots in another order than parse leaves them: a leaf and a free slot change places. */
static void moved(void)
{
    lend("125", 12);
    parse_accepted(9, "U with 12 slots");
    memcpy(tree + 16 * 12, tree + 16 * 5, 16);
    memset(tree + 16 * 5, 0, 16);
    tree[16 * 4 + 6] = 12;
    read_back_accepted(9, "a tree in any slots is read back");
}

/* Buffers of length 0 and short replies. */
static void lengths(void)
{
    kindlesap_parse(NULL, 0, NULL, 0, NULL, 0, NULL, 0, NULL, 0, NULL, 0);
    kindlesap_read_back(NULL, 0, NULL, 0, NULL, 0, NULL, 0);
    expect(1, "NULL with length 0");
    lend("", 1);
    memset(reply, 0xBB, sizeof reply);
    kindlesap_parse(image, image_len, tables, tables_len, NULL, 0, tree, tree_len, work, work_len, reply, 17);
    expect(all(reply, 16, 0) && reply[16] == 1 && all(reply + 17, sizeof reply - 17, 0xBB), "parse: NULL for no tokens, a reply cut inside a field");
    memset(reply, 0xBB, sizeof reply);
    kindlesap_read_back(image, image_len, tree, tree_len, NULL, 0, reply, 17);
    expect(all(reply, 16, 0) && reply[16] == 1 && all(reply + 17, sizeof reply - 17, 0xBB), "read back: NULL for no output, a reply cut inside a field");
    kindlesap_parse(image, image_len, tables, tables_len, tokens, 0, tree, tree_len, work, work_len, NULL, 0);
    expect(slot_is(1, 6, 2, 0, 0, 0), "parse without a reply writes the tree");
}

int main(void)
{
    examples();
    books();
    parse_refusals();
    read_back_refusals();
    moved();
    lengths();
    printf("%d passed, %d failed\n", passed, failed);
    return failed != 0;
}
