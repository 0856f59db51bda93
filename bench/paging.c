// Has the last node's page of a fresh table written as many times as the argument says, for the job text on standard input, and
// prints number, line and a sum over the page: the library's page, or with PLAIN a plain one, which puts the same questions.
#include <stdint.h>
#include <stdio.h>
#include <stdlib.h>
#include <string.h>

enum { LINE = 80 };

static uint8_t text[25878], table[65536], buffer[LINE * 257];

#ifdef PLAIN
#include "plain_reader.h"

// Question 10: each byte is a cell, and cells of states outside the node's fragment are empty.
static bool cells_right(void) {
    static bool inside[8][256];
    memset(inside, 0, sizeof inside);
    for (int s = 0; s < states; s++) inside[owner[s]][s] = true;
    for (int e = 0; e < edges; e++) inside[owner[source[e]]][target[e]] = true;
    const uint8_t *cell = table;
    for (int n = 0; n < nodes; n++)
        for (int s = 0; s < states; s++)
            for (int k = 0; k < subformulas; k++, cell++)
                if (*cell > 2 || (*cell != 2 && !inside[n][s])) return false;
    return true;
}

static void put_number(uint8_t *at, int columns, int number) {
    do at[--columns] = '0' + number % 10, number /= 10;
    while (number > 0);
}

static void write_page(int node) {
    memset(buffer, ' ', LINE * (states + 1));
    for (int k = 0; k < subformulas; k++) put_number(buffer + 15 + 2 * k, 2, k);
    buffer[LINE - 1] = '\n';
    for (int s = 0; s < states; s++) {
        uint8_t *line = buffer + LINE * (s + 1);
        const uint8_t *cells = table + (node * states + s) * subformulas;
        put_number(line, 5, s), put_number(line + 5, 5, owner[s]), put_number(line + 10, 5, label[s]);
        for (int k = 0; k < subformulas; k++) line[16 + 2 * k] = cells[k] == 2 ? '.' : '0' + cells[k];
        line[LINE - 1] = '\n';
    }
}

static void page(size_t length, size_t cells, size_t node, size_t *answer) {
    int line;
    answer[0] = read_job(text, length, &line), answer[1] = line;
    if (answer[0]) return;
    answer[1] = 0;
    if (cells != (size_t)(nodes * states * subformulas)) answer[0] = 9;
    else if (!cells_right()) answer[0] = 10;
    else if (node >= (size_t)nodes) answer[0] = 11;
    else if (sizeof buffer < (size_t)(LINE * (states + 1))) answer[0] = 24;
    else write_page(node);
}
#else
#include "selahmur.h"

static void page(size_t length, size_t cells, size_t node, size_t *answer) {
    selahmur_page(text, length, table, cells, node, buffer, sizeof buffer, answer, SELAHMUR_PAGE_NUMBERS);
}
#endif

static size_t number(const uint8_t *field) {
    char columns[6] = {0};
    memcpy(columns, field, 5);
    return strtoul(columns, NULL, 10);
}

int main(int argc, char **argv) {
    size_t length = fread(text, 1, sizeof text, stdin), answer[2] = {0}, sum = 0;
    size_t cells = number(text) * number(text + 10) * number(text + 15), node = number(text + 15) - 1;
    memset(table, 2, sizeof table);
    for (int count = argc == 2 ? atoi(argv[1]) : 1; count > 0; count--) {
        page(length, cells, node, answer);
        __asm__ volatile("" ::: "memory"); // text and table might be others now: nothing is kept from one page for the next
    }
    for (size_t i = 0; i < sizeof buffer; i++) sum = 31 * sum + buffer[i];
    printf("%5zu%5zu %zu\n", answer[0], answer[1], sum);
    return 0;
}
