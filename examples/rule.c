/*
 * A worked example for an exporter's author: a machine and a rule that is typed become a job, which is judged.
 *
 *     (cd crates/selahmur && rt lib) && mkdir -p target
 *     cc -std=c99 -Wall -Wextra -Iinclude examples/rule.c crates/selahmur/out/libselahmur.a -o target/rule_example
 *     target/rule_example examples/menu.job '!E[p0 => p0 U !E[p0 => p0 U p0]]'
 *
 * A job is a line of four numbers, a line for each state, a line for each edge, and the rule's lines. An exporter writes the states and edges
 * itself; here they are those of another job, whose own rule is left out.
 *
 * Prints yes or no, or what is refused. Exit status 0 for yes, 1 for no, 2 otherwise.
 */
#include <stdio.h>
#include <stdlib.h>
#include <string.h>

#include "selahmur.h"

enum { LONGEST = 25877, MOST_CELLS = 65536, FIRST_LINE = 21, PAIR_LINE = 11 };

static size_t answer[SELAHMUR_MOST_NUMBERS];

static const size_t room = SELAHMUR_MOST_NUMBERS;

/* Ends the program where what was passed is refused. */
static void accepted(const char *what)
{
    if (answer[0] == SELAHMUR_ACCEPTED)
        return;
    printf("the %s is refused: %zu", what, answer[0]);
    if (answer[1] != 0)
        printf(", line %zu", answer[1]);
    printf("\n");
    exit(2);
}

int main(int argc, char **argv)
{
    static uint8_t machine[LONGEST + 1], job[LONGEST + 1], table[MOST_CELLS];
    uint8_t lines[SELAHMUR_RULE_BUFFER];
    size_t length, states, edges, nodes, pairs, subformulas, cells;
    FILE *file = argc == 3 ? fopen(argv[1], "rb") : NULL;

    if (file == NULL) {
        fprintf(stderr, "usage: rule JOB RULE\n");
        return 2;
    }
    length = fread(machine, 1, sizeof machine, file);
    fclose(file);
    selahmur_read(machine, length, answer, room);
    accepted("machine");
    states = answer[2];
    edges = answer[3];
    nodes = answer[5];

    selahmur_rule((const uint8_t *)argv[2], strlen(argv[2]), lines, sizeof lines, answer, room);
    accepted("rule");
    subformulas = answer[2];

    sprintf((char *)job, "%5zu%5zu%5zu%5zu\n", states, edges, subformulas, nodes);
    pairs = PAIR_LINE * (states + edges);
    memcpy(job + FIRST_LINE, machine + FIRST_LINE, pairs);
    memcpy(job + FIRST_LINE + pairs, lines, SELAHMUR_RULE_LINE * subformulas);
    length = FIRST_LINE + pairs + SELAHMUR_RULE_LINE * subformulas;

    selahmur_read(job, length, answer, room);
    accepted("job");
    cells = answer[2] * answer[4] * answer[5];
    selahmur_fresh(job, length, table, cells, answer, room);
    accepted("table");
    selahmur_finish(job, length, table, cells, answer, room);
    accepted("table");
    printf("%s\n", answer[2] ? "yes" : "no");
    return answer[2] ? 0 : 1;
}
