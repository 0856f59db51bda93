/*
 * A worked example for whoever writes the service in C: judges a job as its workers would, call by call.
 *
 *     (cd crates/selahmur && rt lib) && mkdir -p target
 *     cc -std=c99 -Wall -Wextra -Iinclude examples/service.c crates/selahmur/out/libselahmur.a -o target/service
 *     target/service examples/menu.job
 *     target/service examples/menu.job 1
 *
 * Every worker steps. Then each owner's new results are offered and delivered to the workers that have the state at their border. When a
 * turn of this fills nothing the table is settled, and a close fills the smallest open subformula, an until with false, EG or AG with true; when
 * nothing is open either, the table is full and finish only reads the verdict. Here one process plays all workers; in a service a worker is a
 * thread or a machine, and the messages travel as slowly as they like.
 *
 * Prints one line: the verdict and what was done, or the refusal with the line that it is about. With a node's number behind the job, its page
 * follows the verdict: the node's part of the full table, as lines to be printed, or the refusal where there is no such node. Exit status 0 for
 * yes, 1 for no, 2 otherwise.
 */
#include <stdio.h>
#include <stdlib.h>

#include "selahmur.h"

enum { LONGEST = 25877, MOST_CELLS = 65536, MOST_MESSAGES = 256 * 32, MOST_PAGE_LINES = 257 };

static uint8_t text[LONGEST + 1];
static size_t length;
static uint8_t table[MOST_CELLS];
static size_t cells;
static uint8_t page[SELAHMUR_PAGE_LINE * MOST_PAGE_LINES]; /* long enough for any job's */
static size_t answer[SELAHMUR_MOST_NUMBERS];

static const size_t room = SELAHMUR_MOST_NUMBERS;

/* Ends the program where a call is refused that must not be: read, for a job that is not well-formed, or page, for a node that the job has not. */
static void accepted(const char *call)
{
    size_t number = answer[0], line = answer[1];

    if (number == SELAHMUR_ACCEPTED)
        return;
    printf("%s is refused: %zu", call, number);
    if (line != 0) {
        printf(", line %zu", line);
        selahmur_line(text, length, line, answer, room);
        if (answer[1] != 0) {
            printf(": '");
            fwrite(text + answer[0], 1, answer[1], stdout); /* any bytes, 0 too */
            printf("'");
        }
    }
    printf("\n");
    exit(2);
}

/* The node that is typed, or none where it is not a number. */
static size_t typed(const char *word)
{
    char *end;
    size_t number = strtoul(word, &end, 10);

    return end != word && *end == 0 ? number : SELAHMUR_NO_NODE;
}

/* Prints the page of a node: one line for each state behind the heading. */
static void print_page(size_t node, size_t states)
{
    selahmur_page(text, length, table, cells, node, page, sizeof page, answer, room);
    accepted("page");
    fwrite(page, SELAHMUR_PAGE_LINE, states + 1, stdout);
}

int main(int argc, char **argv)
{
    static uint8_t told[MOST_MESSAGES]; /* the messages that were sent already */
    size_t states, subformulas, nodes;
    size_t steps = 0, messages = 0, closes = 0, filled = 0, turn;
    size_t verdict;
    FILE *file = argc == 2 || argc == 3 ? fopen(argv[1], "rb") : NULL;

    if (file == NULL) {
        fprintf(stderr, "usage: service JOB [NODE]\n");
        return 2;
    }
    length = fread(text, 1, sizeof text, file);
    fclose(file);

    selahmur_read(text, length, answer, room);
    accepted("read");
    states = answer[2];
    subformulas = answer[4];
    nodes = answer[5];
    cells = nodes * states * subformulas;
    selahmur_fresh(text, length, table, cells, answer, room);
    accepted("fresh");

    do {
        turn = 0;
        for (size_t node = 0; node < nodes; node++) {
            selahmur_step(text, length, table, cells, node, answer, room);
            accepted("step");
            steps++;
            turn += answer[2];
        }
        for (size_t message = 0; message < states * subformulas; message++) {
            size_t state = message / subformulas, subformula = message % subformulas;

            if (told[message])
                continue;
            selahmur_offer(text, length, table, cells, state, subformula, answer, room);
            if (answer[0] == SELAHMUR_NOT_TEMPORAL || answer[0] == SELAHMUR_OWNER_EMPTY)
                continue;
            accepted("offer");
            told[message] = 1;
            uint8_t value = (uint8_t)answer[4];
            for (size_t node = 0; node < nodes; node++) {
                selahmur_accept(text, length, table, cells, node, state, subformula, value, answer, room);
                if (answer[0] == SELAHMUR_NOT_BORDER)
                    continue;
                accepted("accept");
                messages++;
                turn += answer[2];
            }
        }
        if (turn == 0) {
            selahmur_close(text, length, table, cells, answer, room);
            if (answer[0] != SELAHMUR_NOTHING_OPEN) {
                accepted("close");
                closes++;
                turn = answer[3];
            }
        }
        filled += turn;
    } while (turn > 0);

    selahmur_finish(text, length, table, cells, answer, room);
    accepted("finish");
    verdict = answer[2];
    printf("%s: %zu cells, %zu steps, %zu messages, %zu closes\n", verdict ? "yes" : "no", filled, steps, messages, closes);
    if (argc == 3)
        print_page(typed(argv[2]), states);
    return verdict ? 0 : 1;
}
