/*
 * Calls edit as an editor would: examples G to K, every small edit of a book against parse of the new sentence and read back, each reply and
 * their order, sums that would wrap, buffers of length 0, a short reply buffer, what a refusal leaves alone, and the work area, which is zero
 * after every edit.
 */
#include "check.h"
#include "kindlesap.h"

#include <stdio.h>
#include <string.h>

enum { TREE = 16 + 16 * KINDLESAP_MAX_SLOTS, WORK = 3 * TREE, TOKENS = 8192, TOKEN = KINDLESAP_TOKEN_SIZE };

static uint8_t image[64], tables[KINDLESAP_TABLES_SIZE + 1], tree[TREE + 32], tree_before[TREE + 32], work[WORK + 128], reply[64];
static uint8_t tokens[TOKENS], old[TOKENS], new[TOKENS], output[TOKENS], fresh[TREE];
static size_t image_len, tables_len, tree_len, work_len, tokens_len, old_len, new_len;

static uint64_t field(size_t at, size_t size)
{
    return number_at(reply, at, size);
}

/* The bytes of tokens of some kinds, tagged from `tag` on; how many bytes. */
static size_t put_tokens(uint8_t *bytes, const char *kinds, unsigned tag)
{
    size_t n = 0;
    for (size_t i = 0; kinds[i] != 0; i++, n += TOKEN) {
        const uint8_t token[TOKEN] = {(uint8_t)(kinds[i] - '0'), (uint8_t)(tag + i), 0, 0, 0x80};
        memcpy(bytes + n, token, sizeof token);
    }
    return n;
}

/* Lends the reference grammar, its tables, the tree of some kinds in so many slots, and a work area for them. */
static void open_book(const char *kinds, size_t slots)
{
    image_len = sizeof reference;
    memcpy(image, reference, image_len);
    tables_len = KINDLESAP_TABLES_SIZE;
    kindlesap_prepare(image, image_len, tables, tables_len, NULL, 0);
    old_len = put_tokens(old, kinds, 1);
    tree_len = KINDLESAP_TREE_SIZE(slots);
    work_len = KINDLESAP_WORK_SIZE(slots);
    memset(tree, 0xAA, sizeof tree);
    kindlesap_parse(image, image_len, tables, tables_len, old, old_len, tree, tree_len, work, work_len, NULL, 0);
}

/* Edits by tokens of some kinds; the reply's number. The work area is full of 0xBB before and zero after, and nothing beyond a buffer changes. */
static unsigned edit(uint32_t place, uint32_t removed, const char *kinds)
{
    tokens_len = put_tokens(tokens, kinds, 101);
    memcpy(tree_before, tree, sizeof tree);
    memset(work, 0xBB, sizeof work);
    memset(reply, 0xBB, sizeof reply);
    kindlesap_edit(image, image_len, tables, tables_len, tree, tree_len, place, removed, tokens, tokens_len, work, work_len, reply, sizeof reply);
    expect(all(work, work_len, 0), "the work area is zero");
    expect(all(work + work_len, sizeof work - work_len, 0xBB), "bytes beyond the work area stay");
    expect(memcmp(tree + tree_len, tree_before + tree_len, sizeof tree - tree_len) == 0, "bytes beyond the tree stay");
    expect(all(reply + KINDLESAP_REPLY_SIZE, sizeof reply - KINDLESAP_REPLY_SIZE, 0xBB), "bytes beyond the reply stay");
    return (unsigned)field(0, 4);
}

/* Whether the tree is that of the old tokens with the run replaced, by read back. */
static int reads_back(uint32_t place, uint32_t removed)
{
    uint8_t answer[KINDLESAP_REPLY_SIZE];
    size_t end = TOKEN * ((size_t)place + removed);
    memcpy(new, old, TOKEN * (size_t)place);
    memcpy(new + TOKEN * (size_t)place, tokens, tokens_len);
    memcpy(new + TOKEN * (size_t)place + tokens_len, old + end, old_len - end);
    new_len = old_len - TOKEN * (size_t)removed + tokens_len;
    kindlesap_read_back(image, image_len, tree, tree_len, output, new_len, answer, sizeof answer);
    return number_at(answer, 0, 4) == KINDLESAP_ACCEPTED && number_at(answer, 16, 4) == field(16, 4) && memcmp(output, new, new_len) == 0;
}

static void edit_accepted(uint32_t place, uint32_t removed, const char *kinds, unsigned total, unsigned held, unsigned made, unsigned given_up,
                          const char *what)
{
    expect(edit(place, removed, kinds) == KINDLESAP_ACCEPTED && all(reply + 4, 12, 0), what);
    expect(field(16, 4) == total && field(20, 4) == held && field(24, 4) == made && field(28, 4) == given_up, what);
    expect(reads_back(place, removed), what);
}

static void edit_refused(uint32_t place, uint32_t removed, const char *kinds, unsigned number, uint64_t at, uint32_t expected, const char *what)
{
    expect(edit(place, removed, kinds) == number && field(4, 8) == at && field(12, 4) == expected && all(reply + 16, 16, 0), what);
    expect(memcmp(tree, tree_before, sizeof tree) == 0, "a refusal leaves the tree");
}

/* Whether a slot holds these fields: symbol, production, parent, first child, next sibling. */
static int slot_is(size_t slot, unsigned symbol, unsigned production, unsigned parent, unsigned child, unsigned next)
{
    const uint8_t *s = tree + 16 * slot;
    return s[0] == 0x4E && s[1] == 0x44 && s[2] == symbol && s[3] == production && number_at(s, 4, 2) == parent && number_at(s, 6, 2) == child &&
           number_at(s, 8, 2) == next && number_at(s, 14, 2) == 0;
}

/* Whether these slots are as they were. */
static int kept(const char *slots)
{
    for (size_t i = 0; slots[i] != 0; i++) {
        size_t s = slots[i] <= '9' ? (size_t)(slots[i] - '0') : (size_t)(slots[i] - 'a' + 10);
        if (memcmp(tree + 16 * s, tree_before + 16 * s, 16) != 0)
            return 0;
    }
    return 1;
}

/* Examples G to K. */
static void examples(void)
{
    open_book("125", KINDLESAP_MAX_SLOTS);
    edit_accepted(2, 0, "42", 13, 8, 5, 1, "example G");
    expect(memcmp(tree, "\x54\x52\x01\x00\x0D\x00\x05\x00\0\0\0\0\0\0\0\0", 16) == 0, "example G: the header");
    expect(slot_is(7, 10, 7, 2, 10, 8) && slot_is(10, 4, 0, 7, 0, 11) && slot_is(11, 8, 4, 7, 12, 0), "example G: slots 7, 10 and 11");
    expect(slot_is(12, 2, 0, 11, 0, 13) && slot_is(13, 9, 6, 11, 0, 0), "example G: slots 12 and 13");
    expect(number_at(tree, 16 * 12 + 10, 4) == 0x80000066, "example G: the new host's tag");
    expect(kept("12345689") && all(tree + 16 * 14, tree_len - 16 * 14, 0), "example G: the other slots");

    open_book("125125", KINDLESAP_MAX_SLOTS);
    edit_accepted(0, 3, "", 9, 9, 0, 8, "example H");
    expect(memcmp(tree, "\x54\x52\x09\x00\x09\x00\x03\x00\0\0\0\0\0\0\0\0", 16) == 0, "example H: root slot 9");
    expect(kept("abcdefgh") && all(tree + 16, 16 * 8, 0) && slot_is(9, 6, 1, 0, 10, 0), "example H: the slots");

    open_book("125125", KINDLESAP_MAX_SLOTS);
    edit_accepted(2, 2, "3", 13, 10, 3, 7, "example I");
    expect(tree[16 * 6 + 2] == 9 && tree[16 * 8 + 2] == 3 && tree[16 * 9 + 2] == 6, "example I: Rest in 6, comma in 8, last Book in 9");

    open_book("125125", KINDLESAP_MAX_SLOTS);
    edit_refused(2, 2, "", KINDLESAP_SYNTAX, 2, 56, "example J");

    open_book("125", KINDLESAP_MAX_SLOTS);
    edit_accepted(3, 0, "", 9, 9, 0, 0, "example K: in range");
    expect(memcmp(tree, tree_before, sizeof tree) == 0, "an edit that changes no token changes nothing");
    edit_refused(3, 1, "", KINDLESAP_BEYOND_TOKENS, 3, 0, "example K: beyond");
}

/* Every edit of V at each place, of each length, by some tokens: the verdict of parse, and its tree read back. */
static void small_edits(void)
{
    static const char *const inserted[] = {"", "3", "5", "2", "32", "42", "125", "1", "51", "2512"};
    const size_t slots[] = {17, 18, 24, 40};
    for (size_t s = 0; s < 4; s++)
        for (uint32_t place = 0; place <= 6; place++)
            for (uint32_t removed = 0; place + removed <= 6; removed++)
                for (size_t i = 0; i < 10; i++) {
                    uint8_t answer[KINDLESAP_REPLY_SIZE];
                    open_book("125125", slots[s]);
                    unsigned number = edit(place, removed, inserted[i]);
                    int same = reads_back(place, removed);
                    kindlesap_parse(image, image_len, tables, tables_len, new, new_len, fresh, tree_len, work, work_len, answer, sizeof answer);
                    expect(memcmp(reply, answer, 20) == 0, "number, place, expected set and total are those of parse");
                    if (number == KINDLESAP_ACCEPTED) {
                        expect(same, "an accepted edit is read back");
                        expect(field(20, 4) + field(24, 4) == field(16, 4) && field(20, 4) + field(28, 4) == 17, "the counts add up");
                    } else {
                        expect(memcmp(tree, tree_before, sizeof tree) == 0, "a refusal leaves the tree");
                    }
                }
}

/* A book grows from nothing to the last slot, one rule at a time in front, and shrinks to nothing again. */
static void long_book(void)
{
    open_book("", KINDLESAP_MAX_SLOTS);
    for (unsigned i = 1; i <= 124; i++) {
        expect(edit(0, 0, "125") == KINDLESAP_ACCEPTED && field(16, 4) == 8 * i + 1 && reads_back(0, 0), "a rule in front");
        memcpy(old, new, new_len);
        old_len = new_len;
    }
    edit_refused(0, 0, "125", KINDLESAP_NO_ROOM, 0, 0, "a rule too many");
    edit_refused(1, 0, "3", KINDLESAP_SYNTAX, 1, 1 << 2, "a fault in a full book");
    for (unsigned i = 124; i >= 1; i--) {
        uint32_t place = i / 2 * 3;
        expect(edit(place, 3, "") == KINDLESAP_ACCEPTED && field(16, 4) == 8 * i - 7 && reads_back(place, 3), "a rule from the middle");
        memcpy(old, new, new_len);
        old_len = new_len;
    }
    expect(number_at(tree, 4, 2) == 1 && number_at(tree, 6, 2) == 0, "nothing is left but the root");
    edit_accepted(0, 0, "", 1, 1, 0, 0, "nothing by nothing");
}

/* Each other refusal, and their order. */
static void refusals(void)
{
    open_book("125", 9);
    image_len = 48;
    edit_refused(0, 0, "", KINDLESAP_BAD_GRAMMAR, 45, 0, "the first 48 image bytes");
    image_len = 0;
    edit_refused(0, 0, "", KINDLESAP_BAD_GRAMMAR, 0, 0, "an empty image");
    open_book("125", 9);
    image[3] = 6;
    edit_refused(0, 0, "", KINDLESAP_USELESS_SYMBOL, 11, 0, "n = 6");
    open_book("125", 9);
    memcpy(image + image_len, "\x47\x50\x0A\x01\x05", 5);
    image_len += 5;
    edit_refused(0, 0, "", KINDLESAP_NOT_LL1, 10, 0, "a production more");

    const size_t lengths[] = {0, 1024, KINDLESAP_TABLES_SIZE - 1, KINDLESAP_TABLES_SIZE + 1};
    for (size_t i = 0; i < 4; i++) {
        open_book("125", 9);
        tables_len = lengths[i];
        edit_refused(0, 0, "", KINDLESAP_WRONG_TABLES, 0, 0, "tables of another length");
    }
    open_book("125", 9);
    tables[1024] ^= 1;
    edit_refused(0, 0, "", KINDLESAP_WRONG_TABLES, 0, 0, "a bit of the tables changed");

    const size_t areas[] = {0, 1, 16, 17, 16 * 9, 16 * 10 - 1, 16 * 10 + 1, TREE + 16};
    for (size_t i = 0; i < 8; i++) {
        open_book("125", 9);
        tree_len = areas[i];
        work_len = sizeof work;
        edit_refused(0, 0, "", KINDLESAP_WRONG_TREE, 0, 0, "an area of a wrong length or cut inside the tree");
    }
    for (size_t at = 0; at < 16 * 10; at++) {
        size_t slot = at / 16, byte = at % 16;
        if ((slot == 3 || slot == 5 || slot == 8) && byte >= 10 && byte < 14)
            continue;
        open_book("125", 9);
        tree[at] ^= 0x40;
        edit_refused(0, 0, "", KINDLESAP_WRONG_TREE, 0, 0, "any byte changed but a leaf's tag");
    }
    open_book("125", 9);
    memset(tree, 0, tree_len);
    edit_refused(0, 0, "125", KINDLESAP_WRONG_TREE, 0, 0, "an all-zero area");

    const size_t works[] = {0, 1, 160, 479};
    for (size_t i = 0; i < 4; i++) {
        open_book("125", 9);
        work_len = works[i];
        edit_refused(0, 0, "", KINDLESAP_SHORT_WORK, 480, 0, "work too short");
    }
    open_book("125", 9);
    work_len = 500;
    edit_accepted(0, 0, "", 9, 9, 0, 0, "work longer than needed");

    open_book("125", 9);
    edit_refused(0, 0, "120", KINDLESAP_BAD_TOKEN, 2, 0, "kind 0");
    edit_refused(0, 0, "165", KINDLESAP_BAD_TOKEN, 1, 0, "kind t + 1");
    memset(reply, 0xBB, sizeof reply);
    kindlesap_edit(image, image_len, tables, tables_len, tree, tree_len, 0, 0, tokens, 4, work, work_len, reply, sizeof reply);
    expect(field(0, 4) == KINDLESAP_BAD_TOKEN && field(4, 8) == 0, "a cut token");

    edit_refused(4, 0, "", KINDLESAP_BEYOND_TOKENS, 3, 0, "a place beyond the tokens");
    edit_refused(0, 4, "", KINDLESAP_BEYOND_TOKENS, 3, 0, "more removed than there are");
    edit_refused(2, 2, "", KINDLESAP_BEYOND_TOKENS, 3, 0, "a run that ends beyond the tokens");
    edit_refused(UINT32_MAX, 1, "", KINDLESAP_BEYOND_TOKENS, 3, 0, "a sum that would wrap to 0");
    edit_refused(1, UINT32_MAX, "", KINDLESAP_BEYOND_TOKENS, 3, 0, "a sum that would wrap to 0, the other way");
    edit_refused(UINT32_MAX, UINT32_MAX, "", KINDLESAP_BEYOND_TOKENS, 3, 0, "the largest sum");

    edit_refused(1, 2, "", KINDLESAP_SYNTAX, 1, 1 << 2, "a sentence cut short");
    edit_refused(3, 0, "2", KINDLESAP_SYNTAX, 3, 3, "a token too many");
    edit_refused(2, 0, "32", KINDLESAP_NO_ROOM, 0, 0, "no room for another host");

    open_book("125", 9);
    tables_len = 0;
    tree[0] = 0;
    work_len = 0;
    edit_refused(9, 0, "9", KINDLESAP_WRONG_TABLES, 0, 0, "4 comes before 5");
    tables_len = KINDLESAP_TABLES_SIZE;
    edit_refused(9, 0, "9", KINDLESAP_WRONG_TREE, 0, 0, "5 comes before 6");
    tree[0] = 0x54;
    edit_refused(9, 0, "9", KINDLESAP_SHORT_WORK, 480, 0, "6 comes before 7");
    work_len = 480;
    edit_refused(9, 0, "9", KINDLESAP_BAD_TOKEN, 0, 0, "7 comes before 8");
    edit_refused(9, 0, "5", KINDLESAP_BEYOND_TOKENS, 3, 0, "8 comes before 9");
    edit_refused(0, 0, "5", KINDLESAP_SYNTAX, 0, 3, "9 by the plain parse");
}

/* Slots in another order than parse leaves them: a leaf has another slot. */
static void moved(void)
{
    open_book("125", 14);
    memcpy(tree + 16 * 14, tree + 16 * 5, 16);
    memset(tree + 16 * 5, 0, 16);
    tree[16 * 4 + 6] = 14;
    edit_accepted(2, 0, "42", 13, 8, 5, 1, "a tree in any slots is edited");
    expect(slot_is(5, 10, 7, 2, 7, 8) && slot_is(14, 2, 0, 4, 0, 6), "the lowest free slot is taken, a kept one stays");
}

/* Buffers of length 0 and short replies. */
static void lengths(void)
{
    kindlesap_edit(NULL, 0, NULL, 0, NULL, 0, 0, 0, NULL, 0, NULL, 0, NULL, 0);
    expect(1, "NULL with length 0");
    open_book("125", 9);
    memset(reply, 0xBB, sizeof reply);
    kindlesap_edit(image, image_len, tables, tables_len, tree, tree_len, 0, 3, NULL, 0, work, work_len, reply, 17);
    expect(all(reply, 16, 0) && reply[16] == 1 && all(reply + 17, sizeof reply - 17, 0xBB), "NULL for no tokens, a reply cut inside a field");
    kindlesap_edit(image, image_len, tables, tables_len, tree, tree_len, 0, 0, old, old_len, work, work_len, NULL, 0);
    expect(number_at(tree, 4, 2) == 9 && number_at(tree, 6, 2) == 3, "an edit without a reply alters the tree");
    kindlesap_edit(image, image_len, tables, tables_len, tree, tree_len, 0, 0, NULL, 0, NULL, 0, reply, sizeof reply);
    expect(field(0, 4) == KINDLESAP_SHORT_WORK && field(4, 8) == 480, "NULL for no work");
    kindlesap_edit(image, image_len, tables, tables_len, NULL, 0, 0, 0, NULL, 0, NULL, 0, reply, sizeof reply);
    expect(field(0, 4) == KINDLESAP_WRONG_TREE, "NULL for no tree");
    kindlesap_edit(image, image_len, NULL, 0, tree, tree_len, 0, 0, NULL, 0, work, work_len, reply, sizeof reply);
    expect(field(0, 4) == KINDLESAP_WRONG_TABLES, "NULL for no tables");
}

int main(void)
{
    examples();
    small_edits();
    long_book();
    refusals();
    moved();
    lengths();
    printf("%d passed, %d failed\n", passed, failed);
    return failed != 0;
}
