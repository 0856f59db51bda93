// Reads the job text on standard input as many times as the argument says and prints number and line: the library's reading,
// or with PLAIN the plain reader's.
#include <stdint.h>
#include <stdio.h>
#include <stdlib.h>

uint8_t text[25878];

#ifdef PLAIN
#include "plain_reader.h"

// Others might look here, as far as the compiler knows, so it leaves out nothing that a reading stores.
void *stored[] = {owner, label, first, head, next, source, target, kind, left, right};

static void read_text(size_t length, size_t *answer) {
    int line;
    answer[0] = read_job(text, length, &line), answer[1] = line;
}
#else
#include "selahmur.h"

static void read_text(size_t length, size_t *answer) { selahmur_read(text, length, answer, SELAHMUR_READ_NUMBERS); }
#endif

int main(int argc, char **argv) {
    size_t length = fread(text, 1, sizeof text, stdin), answer[6] = {0};
    for (int count = argc == 2 ? atoi(argv[1]) : 1; count > 0; count--) {
        read_text(length, answer);
        __asm__ volatile("" ::: "memory"); // the text might be another now: nothing is kept from one reading for the next
    }
    printf("%5zu%5zu\n", answer[0], answer[1]);
    return 0;
}
