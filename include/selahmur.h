/*
 * selahmur.h: the eleven calls of Selahmur for programs in C.
 *
 *     (cd crates/selahmur && rt lib)              writes crates/selahmur/out/libselahmur.a
 *     cc -Iinclude service.c crates/selahmur/out/libselahmur.a
 *
 * A job is a text: a state structure, a CTL formula and a cutting over nodes, the workers. Its table has one byte for each node, state and
 * subformula, nodes * states * subformulas in all (at most 65,536), and the cell of a node n, a state s and a subformula k is byte
 * (n * states + s) * subformulas + k: 0 false, 1 true, 2 empty. `selahmur_read` tells the sizes, the caller lends the table, and
 * `selahmur_fresh` makes it fresh. From then on steps, messages and closes come in any order, and `selahmur_finish` gives the verdict.
 * examples/service.c does so from beginning to end. `selahmur_page` writes one node's table as lines to be printed, at any time, into a buffer
 * that is lent besides. `selahmur_rule` takes no job: it makes the lines at the end of one from a formula that is typed, in a buffer in the place
 * of the table. examples/rule.c puts a job together with them.
 *
 * What is passed. Any bytes as the text, any bytes as the table or the buffer, any numbers: what does not fit is refused. Each array is a
 * pointer and the number of its elements. The pointer may not be null, even where that number is 0, and the arrays of one call may not overlap.
 * The text is only read; so is the table by offer, look and page.
 *
 * What is answered. Every call stores all numbers of its answer into `answer`, which the caller lends: the number of the refusal or
 * SELAHMUR_ACCEPTED, the line that the refusal is about, then the call's own numbers. (`selahmur_line` alone is never refused and has only
 * numbers of its own.) A refusal tells 0 in all of the call's own numbers and leaves every byte of the table and the buffer. An array that is too
 * short takes as many numbers as fit, nothing is ever written behind it, and what lies behind the last number of a longer one stays. The
 * constants SELAHMUR_..._NUMBERS say how long an array takes the whole answer.
 *
 * Nothing is kept between calls, nothing is allocated and no file is touched, so threads may call at once, each on a table or a buffer of its
 * own. Calls on one table come one after the other. A call uses some 100 KB of the calling thread's stack at most, whatever the job: close has a
 * copy of the table there. Rule uses a quarter of a KB for each bracket that is open, some 140 KB at most.
 *
 * Every function is proved to give the numbers and the bytes that the specification gives, for whatever is passed.
 */
#ifndef SELAHMUR_H
#define SELAHMUR_H

#include <stddef.h>
#include <stdint.h>

#ifdef __cplusplus
extern "C" {
#endif

/* The first number of an answer: the first question that is answered no. For 1 to 8 the second number is the first line that fails it,
 * counted from 1; for all others it is 0. */
enum {
    SELAHMUR_ACCEPTED = 0,
    SELAHMUR_BAD_FIRST_LINE = 1,    /* fewer than 21 bytes, or line 1 is not four well-formed fields and byte 10 */
    SELAHMUR_BAD_SIZES = 2,         /* states 1 to 256, edges 1 to 2,048, subformulas 1 to 32, nodes 1 to 8 */
    SELAHMUR_BAD_LENGTH = 3,        /* the text has not 21 + 11 * states + 11 * edges + 16 * subformulas bytes */
    SELAHMUR_BAD_LINE = 4,          /* a further line is not made of well-formed fields and byte 10 */
    SELAHMUR_BAD_STATE = 5,         /* an owner that is no node, or a label above 65,535 */
    SELAHMUR_BAD_EDGE = 6,          /* an end that is no state, or a pair that is not greater than the pair before */
    SELAHMUR_NO_EDGE_OUT = 7,       /* the state of this line has no edge out */
    SELAHMUR_BAD_SUBFORMULA = 8,    /* a kind that is not 1 to 9, or operands that do not fit the kind */
    SELAHMUR_TABLE_LENGTH = 9,      /* the table has not nodes * states * subformulas bytes */
    SELAHMUR_TABLE_CELLS = 10,      /* a byte above 2, or a filled cell outside the node's fragment */
    SELAHMUR_NO_SUCH_NODE = 11,     /* the node is not below the number of nodes (look: nor SELAHMUR_NO_NODE) */
    SELAHMUR_NO_SUCH_CELL = 12,     /* no such state, or no such subformula */
    SELAHMUR_NOT_TEMPORAL = 13,     /* the subformula is not of kind 4 to 9 */
    SELAHMUR_OWNER_EMPTY = 14,      /* the owner's cell is empty */
    SELAHMUR_BAD_VALUE = 15,        /* the message's value is neither 0 nor 1 */
    SELAHMUR_NOT_BORDER = 16,       /* the state is not a border state of the node's fragment */
    SELAHMUR_OTHER_VALUE = 17,      /* the cell is filled with the other value */
    SELAHMUR_OUTSIDE_FRAGMENT = 18, /* the state is not in the node's fragment; never with SELAHMUR_NO_NODE */
    SELAHMUR_NOT_SETTLED = 19,      /* a step or a message would still fill a cell */
    SELAHMUR_NOTHING_OPEN = 20,     /* every owner's cell is filled */
    SELAHMUR_BUFFER_LENGTH = 21,    /* the buffer has not 512 bytes */
    SELAHMUR_BAD_RULE = 22,         /* the rule text has over 512 bytes, or is not in the grammar */
    SELAHMUR_TOO_MANY_LINES = 23,   /* the rule has more than 32 lines */
    SELAHMUR_PAGE_ROOM = 24         /* the buffer has fewer than 80 * (states + 1) bytes */
};

/* How many numbers each call's answer has. */
enum {
    SELAHMUR_READ_NUMBERS = 6,
    SELAHMUR_LINE_NUMBERS = 2,
    SELAHMUR_FRESH_NUMBERS = 2,
    SELAHMUR_STEP_NUMBERS = 3,
    SELAHMUR_OFFER_NUMBERS = 5,
    SELAHMUR_ACCEPT_NUMBERS = 3,
    SELAHMUR_LOOK_NUMBERS = 3,
    SELAHMUR_CLOSE_NUMBERS = 4,
    SELAHMUR_FINISH_NUMBERS = 5,
    SELAHMUR_PAGE_NUMBERS = 2,
    SELAHMUR_RULE_NUMBERS = 3,
    SELAHMUR_MOST_NUMBERS = 6 /* room for any answer */
};

/* Look: no node is named, and the state's owner is read. */
enum { SELAHMUR_NO_NODE = 255 };

/* Rule: the bytes of the buffer, and of one line in it. */
enum { SELAHMUR_RULE_BUFFER = 512, SELAHMUR_RULE_LINE = 16 };

/* Page: the bytes of one line; a page has one more line than there are states. */
enum { SELAHMUR_PAGE_LINE = 80 };

/* Reads the job. Refusals 1 to 8.
 * Answer: number, line, states, edges, subformulas, nodes. */
void selahmur_read(const uint8_t *text, size_t text_length, size_t *answer, size_t answer_length);

/* Where a line of the text stands, counted from 1 and without byte 10: so the line that a refusal is about can be shown.
 * Answer: the place of its first byte, and how many bytes there are; 0 and 0 where refusals 1 to 3 apply or there is no such line. */
void selahmur_line(const uint8_t *text, size_t text_length, size_t number, size_t *answer, size_t answer_length);

/* Makes every cell of the table empty, whatever it holds. Refusals 1 to 9.
 * Answer: number, line. */
void selahmur_fresh(const uint8_t *text, size_t text_length, uint8_t *table, size_t table_length, size_t *answer, size_t answer_length);

/* The step of one node: its empty cells take the values that the rules give them; a filled cell never changes. Refusals 1 to 11.
 * Answer: number, line, how many cells are filled. */
void selahmur_step(const uint8_t *text, size_t text_length, uint8_t *table, size_t table_length, size_t node, size_t *answer,
                   size_t answer_length);

/* Hands out a message from the cell of the state's owner. The table stays. Refusals 1 to 10 and 12 to 14.
 * Answer: number, line, then the message: state, subformula, value. */
void selahmur_offer(const uint8_t *text, size_t text_length, const uint8_t *table, size_t table_length, size_t state,
                    size_t subformula, size_t *answer, size_t answer_length);

/* Delivers a message to a node where the state is a border state: the cell takes the value if it is empty. Pass only what an offer on this job
 * handed out; it may come late, more than once, in any order. Refusals 1 to 13 and 15 to 17. (`value` is a byte: C cuts a larger number.)
 * Answer: number, line, how many cells are filled, 0 or 1. */
void selahmur_accept(const uint8_t *text, size_t text_length, uint8_t *table, size_t table_length, size_t node, size_t state,
                     size_t subformula, uint8_t value, size_t *answer, size_t answer_length);

/* The cell of a node, a state and a subformula; SELAHMUR_NO_NODE is read as the state's owner. The table stays. Refusals 1 to 12 and 18.
 * Answer: number, line, the cell: 0, 1 or 2. */
void selahmur_look(const uint8_t *text, size_t text_length, const uint8_t *table, size_t table_length, size_t node, size_t state,
                   size_t subformula, size_t *answer, size_t answer_length);

/* On a settled table, fills every empty cell of the smallest subformula that is open at some owner: with 0 if it is an until (kinds 6 and 7),
 * with 1 if it is EG or AG (kinds 8 and 9). Refusals 1 to 10, 19 and 20.
 * Answer: number, line, that subformula, how many cells are filled. */
void selahmur_close(const uint8_t *text, size_t text_length, uint8_t *table, size_t table_length, size_t *answer, size_t answer_length);

/* Rounds of steps, copies to border states and closes, until one fills nothing. Refusals 1 to 10.
 * Answer: number, line, the verdict (1 yes, 0 no), the rounds done with that last one, how many cells are filled. */
void selahmur_finish(const uint8_t *text, size_t text_length, uint8_t *table, size_t table_length, size_t *answer,
                     size_t answer_length);

/* Writes one node's table as states + 1 lines of 79 columns and byte 10, SELAHMUR_PAGE_LINE bytes each, from the start of the buffer on, which has
 * as many bytes or more. The first line has 15 spaces and then the numbers of the subformulas in two columns each; then comes a line for each
 * state: state, owner and label in five columns each, and for each subformula a space and 0, 1 or `.` for an empty cell. A state outside the node's
 * fragment has a line too, with nothing but dots. Every number is right-justified and every line filled with spaces. Bytes behind the lines and the
 * table stay. Refusals 1 to 11 and 24; SELAHMUR_NO_NODE is no node here.
 * Answer: number, line. */
void selahmur_page(const uint8_t *text, size_t text_length, const uint8_t *table, size_t table_length, size_t node, uint8_t *buffer,
                   size_t buffer_length, size_t *answer, size_t answer_length);

/* Reads a rule as text, of at most 512 bytes, and writes its lines, a job's subformula lines, from the start of the buffer on, which has exactly
 * 512 bytes. Each line takes 16 bytes, byte 10 among them; the last one is the whole rule's. Bytes behind the lines stay. Refusals 21 to 23.
 * Atoms are p0 to p15. Prefix !, AX, EX, EG and AG bind tightest, then come &, | and =>, weaker in this order; & and | group to the left, =>
 * to the right. A[f U g], E[f U g] and (f) are closed forms. f | g becomes not(not f and not g), and f => g becomes not(f and not g). Spaces
 * may stand before, between and after tokens and must stand between two of letters or digits; nothing else may, byte 10 neither.
 * Answer: number, line (0), how many lines. */
void selahmur_rule(const uint8_t *text, size_t text_length, uint8_t *buffer, size_t buffer_length, size_t *answer, size_t answer_length);

#ifdef __cplusplus
}
#endif

#endif
