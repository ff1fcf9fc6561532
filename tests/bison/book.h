/* The rule language parsed by a bison parser, for measuring: token bytes in, a linked tree of preallocated nodes out. */
#ifndef BOOK_H
#define BOOK_H

#include <stddef.h>
#include <stdint.h>

enum { BOOK_NODES = 1000 };

/* A node: symbol and production as the reference grammar numbers them (production 0 for a leaf), and the tag of a leaf. */
struct node {
    struct node *first_child, *next_sibling;
    uint32_t tag;
    uint8_t symbol, production;
};

/* A parse: the tokens not yet read, and the nodes made, the root's among them if it was accepted. */
struct book {
    const uint8_t *tokens;
    size_t tokens_len;
    struct node *root;
    size_t used;
    struct node nodes[BOOK_NODES];
};

/* Parses tokens of 5 bytes each into the book's nodes; 0 if they are a sentence whose tree fits, with the tree in root. */
int book_parse(struct book *book, const uint8_t *tokens, size_t tokens_len);

#endif
