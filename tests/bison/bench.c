/*
 * Times the bison parser on the token bytes of a book (standard input). Prints `bison NANOS nodes COUNT`, the count by a walk over the tree.
 * The tree is written as `symbol production tag` in preorder, a line for each node, if there is an argument.
 */
#define _POSIX_C_SOURCE 199309L
#include "../c/timing.h"
#include "book.h"

#include <stdio.h>

static uint8_t tokens[1 << 13];
static size_t tokens_len;
static struct book book;
static int refused;

static void parse(void)
{
    refused |= book_parse(&book, tokens, tokens_len);
    __asm__ volatile("" : : "r"(&book) : "memory");
}

/* The number of nodes of a subtree. */
static size_t walk(const struct node *top, int print)
{
    size_t count = 1;
    if (print)
        printf("%u %u %u\n", top->symbol, top->production, (unsigned)top->tag);
    for (const struct node *child = top->first_child; child != NULL; child = child->next_sibling)
        count += walk(child, print);
    return count;
}

int main(int argc, char **argv)
{
    struct timed calls[] = {{parse, 0}};
    (void)argv;
    tokens_len = fread(tokens, 1, sizeof tokens, stdin);
    timing(calls, 1, 40, 20);
    if (refused) {
        printf("refused\n");
        return 1;
    }
    size_t nodes = walk(book.root, argc > 1);
    printf("bison %.0f nodes %zu\n", calls[0].nanos, nodes);
    return 0;
}
