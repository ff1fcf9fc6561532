/*
 * Kindlesap: LL(1) tables and trees of fixed slots, for C callers.
 *
 * Every call takes whatever bytes it is given, checks them itself, ends, and writes one of the replies below. It keeps no memory of its own:
 * the caller lends every buffer, as a pointer and a length in bytes, and has it back when the call returns: nothing of it is kept. Lent
 * buffers must not overlap. They may stand at any address; one of length 0 may come with any pointer, NULL too. What else a call needs is on the
 * stack, less than 64 KiB of it.
 *
 * The calls of one editor: prepare once for a grammar, parse to open a sentence, then edit and read back as often as it likes. The grammar image
 * and the tables go unaltered into each call that takes them. The tree area is all that is known of the sentence; it holds no pointers, so that
 * the caller may copy, store and move it between calls. Reply and work area hand nothing on from one call to the next.
 *
 * Any refusal leaves every lent buffer as it was, except the reply and the work area. A call with a work area leaves the whole of it zero,
 * whichever reply it gives.
 */
#ifndef KINDLESAP_H
#define KINDLESAP_H

#include <stddef.h>
#include <stdint.h>

#ifdef __cplusplus
extern "C" {
#endif

/*
 * Tables are exactly this long. The first 1,024 bytes are predictions: a row for each nonterminal in turn, 32 columns of lookahead 0..31 (0 is the
 * end of the sentence), value 0 or the production (the first is 1). Behind them stand the break points.
 */
#define KINDLESAP_TABLES_SIZE 33792

/*
 * A token is 5 bytes: kind 1..t, then a 32-bit tag that is carried and never interpreted. A sentence is its tokens one behind the other. All
 * numbers are little-endian.
 */
#define KINDLESAP_TOKEN_SIZE 5

/*
 * A tree area has 1 to KINDLESAP_MAX_SLOTS slots, numbered from 1, and is exactly KINDLESAP_TREE_SIZE(slots) bytes.
 *
 *   header   `54 52`, root slot (2), used slots (2), tokens (2), eight zeros
 *   slot     `4E 44`, symbol (1), production (1; 0 for a leaf), parent, first child and next sibling (2 each, 0 for none), tag (4; 0 unless a
 *            leaf), two zeros; a free slot is all zero
 *
 * Slot k is the 16 bytes from byte 16k on. A leaf is a token. A node with a production and no child derives nothing.
 *
 * A tree is valid exactly when it is one derivation tree of a sentence from the start symbol, every used slot is reached from the root once,
 * all links and counts are right, and free slots are zero. An all-zero area is no tree.
 */
#define KINDLESAP_MAX_SLOTS 1000
#define KINDLESAP_TREE_SIZE(slots) (16 + 16 * (size_t)(slots))

/* A work area is at least this long for a tree area with so many slots. */
#define KINDLESAP_WORK_SIZE(slots) (3 * KINDLESAP_TREE_SIZE(slots))

/*
 * A reply is 32 bytes, little-endian: number (4), place (8), expected (4), then the counts total, kept, made, given up (4 each); these begin at
 * bytes 0, 4, 12, 16, 20, 24, 28. As much of it is written as the reply buffer holds; bytes beyond 32 stay as they were.
 *
 *  No.  given exactly when                                                      place
 *   0   accepted                                                                0
 *   1   a grammar record is bad, or the image is empty                          byte offset of the first bad one
 *   2   a nonterminal derives no terminal string (the empty one counts), or
 *       no string derived from the start symbol holds it                        lowest such symbol
 *   3   the grammar is not LL(1)                                                lowest nonterminal in conflict
 *   4   the tables are of another length; in parse and edit also not what
 *       prepare writes                                                          0
 *   5   the tree area's length is wrong; in edit and read back also no valid
 *       tree                                                                    0
 *   6   the work area is shorter than three times the tree area                 length needed
 *   7   the token bytes end inside a record, or a kind is not 1..t              first bad record, from 0
 *   8   place plus removed exceeds the old token count                          that count
 *   9   syntax, as told at parse                                                token
 *  10   no room, as told at parse                                               0
 *  11   the output is shorter than 5 bytes a token                              bytes needed
 *
 * They are tried in this order, each call taking those that concern it; between 9 and 10 the plain parse decides. Only reply 9 has an
 * expected set. Total is the number of nodes in the stored tree; parse has total and made, edit has all four, read back has total. Fields
 * not named are 0.
 */
#define KINDLESAP_REPLY_SIZE 32

#define KINDLESAP_ACCEPTED 0
#define KINDLESAP_BAD_GRAMMAR 1
#define KINDLESAP_USELESS_SYMBOL 2
#define KINDLESAP_NOT_LL1 3
#define KINDLESAP_WRONG_TABLES 4
#define KINDLESAP_WRONG_TREE 5
#define KINDLESAP_SHORT_WORK 6
#define KINDLESAP_BAD_TOKEN 7
#define KINDLESAP_BEYOND_TOKENS 8
#define KINDLESAP_SYNTAX 9
#define KINDLESAP_NO_ROOM 10
#define KINDLESAP_SHORT_OUTPUT 11

/*
 * Prepares the tables of a grammar image.
 *
 * The image: `47 48`, t, n, start symbol; then up to 128 productions, each `47 50`, left side, body length 0..8, body symbols (bytes in
 * hexadecimal). Terminals are 1..t (t is 1..31), nonterminals t+1..t+n (n is 1..32). The head comes first and only once; start and left
 * sides are nonterminals, body symbols 1..t+n; the image's end falls between records. A record that breaks a rule is bad, and so is a
 * 129th production. Replies 1, 2, 3, 4. If accepted, all KINDLESAP_TABLES_SIZE bytes of the tables are written.
 */
void kindlesap_prepare(const uint8_t *grammar, size_t grammar_len, uint8_t *tables, size_t tables_len, uint8_t *reply, size_t reply_len);

/*
 * Parses a sentence of tokens into a tree area, whose earlier contents do not matter. The tables are those that prepare writes for the
 * grammar. Replies 1, 2, 3, 4, 5, 6, 7, 9, 10.
 *
 * The plain parse begins with the start symbol, one node. With M on top and lookahead a (0 at the end of the sentence): a predicted
 * production replaces M by its body and adds one node per body symbol; a terminal M equal to a is matched; no symbols left and lookahead 0
 * accepts. Otherwise reply 9. If an expansion would bring the count of nodes above the number of slots, reply 10. The first of these to
 * occur is the reply. Expected set in reply 9: bit a for each lookahead with a prediction for M; only M's bit if M is a terminal; only bit
 * 0 if nothing is left. Its place equals the number of tokens in the longest beginning of the sentence that also begins some sentence of
 * the language.
 *
 * If accepted, the whole area is written, the nodes in slots 1, 2, .. in preorder. The work area becomes zero whichever the reply and
 * whatever its length.
 */
void kindlesap_parse(const uint8_t *grammar, size_t grammar_len, const uint8_t *tables, size_t tables_len, const uint8_t *tokens, size_t tokens_len,
                     uint8_t *tree, size_t tree_len, uint8_t *work, size_t work_len, uint8_t *reply, size_t reply_len);

/*
 * Edits a valid tree: `removed` tokens from `place` on (the first token is 0) go, and the new tokens come there. Either may be none; a place equal
 * to the token count is behind the last token. Replies 1, 2, 3, 4, 5, 6, 7, 8, and 9 or 10 by the plain parse of the whole new sentence into the
 * area's slots; the place of reply 9 is a token of the new sentence. The tables are those that prepare writes for the grammar.
 *
 * If accepted, the area holds a valid tree of the new sentence: the nodes are those that parse would make, and their slots are as follows.
 * Tokens before the place, and those after the removed run, are kept tokens; a new token equal to a removed one is still new. A node with
 * tokens keeps its slot exactly when its first token is kept and both trees have a node of that symbol starting with it. A node without tokens
 * keeps its slot exactly when its parent does and the new tree's node at the same place below that parent has no tokens either; a root without
 * tokens, exactly when the new root has none. All others are given up. New nodes, in preorder, take the lowest-numbered slots that no kept
 * node holds. Kept nodes that start after the removed run carry their whole subtree along; below such a subtree's top no byte changes. So
 * total is kept plus made, and the old tree's total was kept plus given up.
 *
 * The work area becomes zero whichever the reply and whatever its length.
 */
void kindlesap_edit(const uint8_t *grammar, size_t grammar_len, const uint8_t *tables, size_t tables_len, uint8_t *tree, size_t tree_len,
                    uint32_t place, uint32_t removed, const uint8_t *tokens, size_t tokens_len, uint8_t *work, size_t work_len, uint8_t *reply,
                    size_t reply_len);

/*
 * Reads the tokens of a valid tree back into the output: 5 bytes a token and nothing beyond. The number of tokens stands in the tree's header, and
 * is never above the number of slots. Replies 1, 2, 3, 5, 11.
 */
void kindlesap_read_back(const uint8_t *grammar, size_t grammar_len, const uint8_t *tree, size_t tree_len, uint8_t *output, size_t output_len,
                         uint8_t *reply, size_t reply_len);

#ifdef __cplusplus
}
#endif

#endif
