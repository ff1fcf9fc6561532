/* The reference grammar for bison. Terminals have the numbers of their kinds; each production makes the same node as the library's parse. */
%require "3.0"
%define api.pure full
%define api.value.type {struct node *}
%parse-param {struct book *book}
%lex-param {struct book *book}

/* Bison counts errors, which nothing here asks for: some compilers warn of a variable that is only counted up. */
%initial-action { (void)yynerrs; }

%code requires {
#include "book.h"
}

%code {
/* The stack holds a symbol for each rule of the book: enough from the start, so that it is never moved. */
#define YYINITDEPTH 4000
#define YYMAXDEPTH 4000

static int yylex(struct node **value, struct book *book);
static void yyerror(struct book *book, const char *message);
static struct node *node(struct book *book, uint8_t symbol, uint8_t production, uint32_t tag);

/* A node for a production, with its children chained; the parse ends if there is no room. */
#define MAKE(result, symbol, production, child) \
    do { \
        struct node *made = node(book, symbol, production, 0); \
        if (made == NULL) \
            YYABORT; \
        made->first_child = (child); \
        (result) = made; \
    } while (0)

enum { BOOK = 6, RULE, LIST, REST, BAR };
}

%token ALLOW HOST COMMA EXCEPT SEMICOLON

%%

whole:
    book { book->root = $1; }
    ;

book:
    rule book { $1->next_sibling = $2; MAKE($$, BOOK, 1, $1); }
    | %empty { MAKE($$, BOOK, 2, NULL); }
    ;

rule:
    ALLOW list bar SEMICOLON { $1->next_sibling = $2; $2->next_sibling = $3; $3->next_sibling = $4; MAKE($$, RULE, 3, $1); }
    ;

list:
    HOST rest { $1->next_sibling = $2; MAKE($$, LIST, 4, $1); }
    ;

rest:
    COMMA list { $1->next_sibling = $2; MAKE($$, REST, 5, $1); }
    | %empty { MAKE($$, REST, 6, NULL); }
    ;

bar:
    EXCEPT list { $1->next_sibling = $2; MAKE($$, BAR, 7, $1); }
    | %empty { MAKE($$, BAR, 8, NULL); }
    ;

%%

/* A new node, or NULL if there is no room. */
static struct node *node(struct book *book, uint8_t symbol, uint8_t production, uint32_t tag)
{
    if (book->used == BOOK_NODES)
        return NULL;
    struct node *made = &book->nodes[book->used++];
    made->first_child = NULL;
    made->next_sibling = NULL;
    made->tag = tag;
    made->symbol = symbol;
    made->production = production;
    return made;
}

/* The next token with a node for it. A bad kind, a cut token and a full book are all bison's undefined token. */
static int yylex(struct node **value, struct book *book)
{
    static const int kinds[6] = {YYUNDEF, ALLOW, HOST, COMMA, EXCEPT, SEMICOLON};
    const uint8_t *t = book->tokens;
    if (book->tokens_len == 0)
        return YYEOF;
    if (book->tokens_len < 5 || t[0] == 0 || t[0] > 5)
        return YYUNDEF;
    uint32_t tag = t[1] | (uint32_t)t[2] << 8 | (uint32_t)t[3] << 16 | (uint32_t)t[4] << 24;
    book->tokens += 5;
    book->tokens_len -= 5;
    *value = node(book, t[0], 0, tag);
    return *value == NULL ? YYUNDEF : kinds[t[0]];
}

/* The message is not needed: a parse is accepted or not. */
static void yyerror(struct book *book, const char *message)
{
    (void)book;
    (void)message;
}

int book_parse(struct book *book, const uint8_t *tokens, size_t tokens_len)
{
    book->tokens = tokens;
    book->tokens_len = tokens_len;
    book->root = NULL;
    book->used = 0;
    return yyparse(book);
}
