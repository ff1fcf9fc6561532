/*
 * What an editor does with the library: a rule book in words is turned into tokens, parsed into a tree of fixed slots, and edited there. After
 * each edit the program prints the reply, the tree, and the text that is read back from it; examples/edits.out is all that it prints.
 *
 * The words of a rule book are this program's own affair: a lexer turns them into tokens, with a host's number as the tag, and the library sees
 * the tokens alone. `include/kindlesap.h` says what each buffer holds.
 */
#include "kindlesap.h"

#include <stdio.h>
#include <stdlib.h>
#include <string.h>

enum { SLOTS = 60, TREE = KINDLESAP_TREE_SIZE(SLOTS), WORK = KINDLESAP_WORK_SIZE(SLOTS), TOKENS = SLOTS * KINDLESAP_TOKEN_SIZE };

enum { END, ALLOW, HOST, COMMA, EXCEPT, SEMICOLON, BOOK, RULE, LIST, REST, BAR };

static const char *const names[] = {"the end", "allow", "host", "comma", "except", "semicolon", "Book", "Rule", "List", "Rest", "Bar"};

/* The terminals as they stand in a rule book. */
static const char *const words[] = {"", "allow", "host", ",", "except", ";"};

static const uint8_t grammar[] = {
    0x47, 0x48, 5, 5, BOOK,                           /* terminals, nonterminals, start symbol */
    0x47, 0x50, BOOK, 2, RULE, BOOK,                  /* a book is a rule and a book, */
    0x47, 0x50, BOOK, 0,                              /* or nothing */
    0x47, 0x50, RULE, 4, ALLOW, LIST, BAR, SEMICOLON, /* a rule is `allow`, a list, a bar and a semicolon */
    0x47, 0x50, LIST, 2, HOST, REST,                  /* a list is a host and the rest, */
    0x47, 0x50, REST, 2, COMMA, LIST,                 /* which is a comma and a list, */
    0x47, 0x50, REST, 0,                              /* or nothing */
    0x47, 0x50, BAR, 2, EXCEPT, LIST,                 /* a bar is `except` and a list, */
    0x47, 0x50, BAR, 0,                               /* or nothing */
};

static const char book[] = "allow host 1, host 2;\n"
                           "allow host 3, host 4 except host 7;\n"
                           "allow host 9;\n";

/* An edit: behind the first `behind` of the text, `removed` goes and `inserted` comes. */
static const struct edit {
    const char *title, *behind, *removed, *inserted;
} edits[] = {
    {"The line before the rule with an exception is deleted", "", "allow host 1, host 2;", ""},
    {"A host is inserted into a list", "host 4", "", ", host 5"},
    {"The exception is deleted", "host 5", "except host 7", ""},
    {"A host is replaced by another", "allow", "host 3", "host 6"},
    {"A semicolon is deleted", "host 5", ";", ""},
};

struct tokens {
    size_t count;
    uint8_t bytes[TOKENS];
};

/* What is lent to the library. The reply and the work area may hold anything; the tree is what the calls hand on to each other. */
static uint8_t tables[KINDLESAP_TABLES_SIZE], tree[TREE], work[WORK], reply[KINDLESAP_REPLY_SIZE];

/* The tree before the last call. */
static uint8_t before[TREE];

static void stop(const char *what)
{
    fprintf(stderr, "edits: %s\n", what);
    exit(1);
}

/* A little-endian number. */
static uint64_t number(const uint8_t *bytes, size_t size)
{
    uint64_t value = 0;
    while (size > 0)
        value = value << 8 | bytes[--size];
    return value;
}

static void add_token(struct tokens *tokens, uint8_t kind, uint32_t tag)
{
    if (tokens->count == SLOTS)
        stop("too many tokens");
    uint8_t *token = tokens->bytes + KINDLESAP_TOKEN_SIZE * tokens->count++;
    token[0] = kind;
    for (int i = 0; i < 4; i++)
        token[1 + i] = (uint8_t)(tag >> 8 * i);
}

/* The tokens of a text. */
static struct tokens lex(const char *text)
{
    struct tokens tokens = {0};
    for (text += strspn(text, " \n"); *text != 0; text += strspn(text, " \n")) {
        uint8_t kind = ALLOW;
        while (kind <= SEMICOLON && strncmp(text, words[kind], strlen(words[kind])) != 0)
            kind++;
        if (kind > SEMICOLON)
            stop("no word of a rule book");
        text += strlen(words[kind]);
        uint32_t tag = 0;
        if (kind == HOST) {
            char *behind;
            tag = (uint32_t)strtoul(text, &behind, 10);
            if (behind == text)
                stop("a host without a number");
            text = behind;
        }
        add_token(&tokens, kind, tag);
    }
    return tokens;
}

/* The tokens of the tree. A tree has a slot for each of its tokens, so that there is room for them. */
static struct tokens read_back(void)
{
    struct tokens tokens = {0};
    kindlesap_read_back(grammar, sizeof grammar, tree, sizeof tree, tokens.bytes, sizeof tokens.bytes, reply, sizeof reply);
    if (reply[0] != KINDLESAP_ACCEPTED)
        stop("no valid tree");
    tokens.count = number(tree + 6, 2);
    return tokens;
}

/* Whether some tokens stand at a place among others. */
static int stand_at(const struct tokens *some, const struct tokens *others, size_t place)
{
    size_t size = KINDLESAP_TOKEN_SIZE;
    return place + some->count <= others->count && memcmp(others->bytes + size * place, some->bytes, size * some->count) == 0;
}

/* The place behind the first such tokens among others. */
static size_t place_behind(const struct tokens *some, const struct tokens *others)
{
    size_t place = 0;
    while (place < others->count && !stand_at(some, others, place))
        place++;
    return place + some->count;
}

/* A token in words, with a blank before it where one is due. */
static void print_word(int first, unsigned kind, uint32_t tag)
{
    printf("%s%s", first || kind == COMMA || kind == SEMICOLON ? "" : " ", words[kind]);
    if (kind == HOST)
        printf(" %lu", (unsigned long)tag);
}

/* The text that is read back, a rule a line. */
static void print_text(void)
{
    struct tokens text = read_back();
    int first = 1;
    for (size_t i = 0; i < text.count; i++) {
        const uint8_t *token = text.bytes + KINDLESAP_TOKEN_SIZE * i;
        printf("%s", first ? "  | " : "");
        print_word(first, token[0], (uint32_t)number(token + 1, 4));
        first = token[0] == SEMICOLON;
        printf("%s", first ? "\n" : "");
    }
}

/* The fields of a slot. */

static unsigned symbol(size_t slot)
{
    return tree[16 * slot + 2];
}

static size_t first_child(size_t slot)
{
    return number(tree + 16 * slot + 6, 2);
}

static size_t next_sibling(size_t slot)
{
    return number(tree + 16 * slot + 8, 2);
}

static uint32_t tag(size_t slot)
{
    return (uint32_t)number(tree + 16 * slot + 10, 4);
}

/* Whether a slot's bytes are not those before the edit. */
static int altered(size_t slot)
{
    return memcmp(tree + 16 * slot, before + 16 * slot, 16) != 0;
}

static int altered_below(size_t slot)
{
    for (size_t child = first_child(slot); child != 0; child = next_sibling(child))
        if (altered(child) || altered_below(child))
            return 1;
    return 0;
}

/* The words from a slot down; whether a word that follows is still the first. */
static int print_words(size_t slot, int first)
{
    if (symbol(slot) <= SEMICOLON) {
        print_word(first, symbol(slot), tag(slot));
        return 0;
    }
    for (size_t child = first_child(slot); child != 0; child = next_sibling(child))
        first = print_words(child, first);
    return first;
}

/* The nodes from a slot down, as main says. */
static void print_nodes(size_t slot, int depth, int edited)
{
    int folded = edited && symbol(slot) > BOOK && first_child(slot) != 0 && !altered_below(slot);
    printf("%*s%zu %s", 4 + 2 * depth, "", slot, names[symbol(slot)]);
    if (symbol(slot) == HOST)
        printf(" %lu", (unsigned long)tag(slot));
    printf("%s%s", edited && altered(slot) ? " *" : "", folded ? ": " : "");
    if (folded)
        print_words(slot, 1);
    printf("\n");
    for (size_t child = folded ? 0 : first_child(slot); child != 0; child = next_sibling(child))
        print_nodes(child, depth + 1, edited);
}

/* The expected set in words. */
static void print_expected(uint32_t expected)
{
    for (int kind = END; expected >> kind != 0; kind++)
        if (expected >> kind & 1) {
            uint32_t others = expected >> kind >> 1;
            printf("%s%s", names[kind], others == 0 ? "\n" : (others & (others - 1)) == 0 ? " or " : ", ");
        }
}

/* The reply of a parse or an edit, then the tree. */
static void print_outcome(int edited)
{
    if (reply[0] == KINDLESAP_ACCEPTED) {
        unsigned total = number(reply + 16, 4), kept = number(reply + 20, 4), made = number(reply + 24, 4), given_up = number(reply + 28, 4);
        printf("  accepted: total %u, kept %u, made %u, given up %u\n", total, kept, made, given_up);
        print_nodes(number(tree + 2, 2), 0, edited);
    } else {
        printf("  refused: reply %u, place %llu\n", (unsigned)number(reply, 4), (unsigned long long)number(reply + 4, 8));
        if (reply[0] == KINDLESAP_SYNTAX) {
            printf("  expected: ");
            print_expected((uint32_t)number(reply + 12, 4));
        }
        printf("  the tree %s\n", memcmp(tree, before, sizeof tree) == 0 ? "is as it was" : "is not as it was");
    }
}

static void apply(const struct edit *edit)
{
    struct tokens text = read_back(), behind = lex(edit->behind), removed = lex(edit->removed), inserted = lex(edit->inserted);
    size_t place = place_behind(&behind, &text);
    if (!stand_at(&removed, &text, place))
        stop("an edit of another text");
    printf("\n%s: at %zu remove %zu, insert %zu.\n", edit->title, place, removed.count, inserted.count);
    memcpy(before, tree, sizeof before);
    kindlesap_edit(grammar, sizeof grammar, tables, sizeof tables, tree, sizeof tree, (uint32_t)place, (uint32_t)removed.count, inserted.bytes,
                   KINDLESAP_TOKEN_SIZE * inserted.count, work, sizeof work, reply, sizeof reply);
    print_outcome(1);
    print_text();
}

int main(void)
{
    struct tokens text = lex(book);
    kindlesap_prepare(grammar, sizeof grammar, tables, sizeof tables, reply, sizeof reply);
    if (reply[0] != KINDLESAP_ACCEPTED)
        stop("the grammar is refused");
    kindlesap_parse(grammar, sizeof grammar, tables, sizeof tables, text.bytes, KINDLESAP_TOKEN_SIZE * text.count, tree, sizeof tree, work,
                    sizeof work, reply, sizeof reply);
    printf("A line of a tree is a node: its slot, its symbol, and a host's number. After an edit a star marks a slot whose bytes were\n"
           "altered, and where none was below a node its words stand for what is below.\n\n"
           "The book is opened.\n");
    print_outcome(0);
    print_text();
    for (size_t i = 0; i < sizeof edits / sizeof edits[0]; i++)
        apply(&edits[i]);
    return 0;
}
