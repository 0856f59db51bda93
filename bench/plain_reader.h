// A plain, unverified reader of job texts, which lays the job out for plain.c: what the proved one is measured against. Each
// field is parsed once. Lines are met in their order, so the first malformed one ends the reading; the first line that fails
// 5, 6 or 8 waits until all are known to be well-formed.
#include <stdbool.h>
#include <stdint.h>
#include <string.h>

enum { ATOM = 1, NOT, AND, AX, EX, AU, EU, EG, AG };

static int states, edges, subformulas, nodes;
static uint8_t owner[256];
static uint16_t label[256];
// edges by source, as runs, and by target, as chains of edge numbers plus 1
static uint16_t first[257], head[256], next[2048];
static uint8_t source[2048], target[2048];
static int kind[32], left[32], right[32];

// The field of five columns at `c`, or -1 if it is not well-formed.
static int field(const uint8_t *c) {
    int i = 0, n = 0;
    while (i < 4 && c[i] == ' ') i++;
    if (i < 4 && c[i] == '0') return -1;
    for (; i < 5; i++) {
        unsigned digit = c[i] - '0';
        if (digit > 9) return -1;
        n = 10 * n + digit;
    }
    return n;
}

// Each of the next three reads the lines of one sort. Returns the first malformed line, or 0, and sets *bad to the first that
// fails the sort's question.

static int read_states(const uint8_t *at, int *bad) {
    for (int s = 0; s < states; s++, at += 11) {
        int o = field(at), l = field(at + 5);
        if (o < 0 || l < 0 || at[10] != '\n') return 2 + s;
        if (!*bad && (o >= nodes || l > 65535)) *bad = 2 + s;
        owner[s] = o, label[s] = l;
    }
    return 0;
}

static int read_edges(const uint8_t *at, int *bad) {
    int before = -1;
    memset(first, 0, sizeof first);
    memset(head, 0, sizeof head);
    for (int e = 0; e < edges; e++, at += 11) {
        int from = field(at), to = field(at + 5), pair = from * 256 + to;
        if (from < 0 || to < 0 || at[10] != '\n') return 2 + states + e;
        if (!*bad && (from >= states || to >= states || pair <= before)) *bad = 2 + states + e;
        if (*bad) continue;
        before = pair;
        source[e] = from, target[e] = to;
        first[from + 1] = e + 1;
        next[e] = head[to], head[to] = e + 1;
    }
    return 0;
}

static bool subformula_ok(int k, int kind, int a, int b) {
    switch (kind) {
    case ATOM: return a <= 15 && b == 0;
    case NOT: case AX: case EX: case EG: case AG: return a < k && b == 0;
    case AND: case AU: case EU: return a < k && b < k;
    default: return false;
    }
}

static int read_subformulas(const uint8_t *at, int *bad) {
    for (int k = 0; k < subformulas; k++, at += 16) {
        int line = 2 + states + edges + k;
        kind[k] = field(at), left[k] = field(at + 5), right[k] = field(at + 10);
        if (kind[k] < 0 || left[k] < 0 || right[k] < 0 || at[15] != '\n') return line;
        if (!*bad && !subformula_ok(k, kind[k], left[k], right[k])) *bad = line;
    }
    return 0;
}

// The line of the first state without an edge, or 0.
static int without_edge(void) {
    for (int s = 0; s < states; s++)
        if (first[s + 1] == 0) return 2 + s;
    return 0;
}

// Questions 1 to 8. Returns the number of the first no, or 0, and sets *line.
static int read_job(const uint8_t *text, int length, int *line) {
    *line = 1;
    if (length < 21) return 1;
    states = field(text), edges = field(text + 5), subformulas = field(text + 10), nodes = field(text + 15);
    if (states < 0 || edges < 0 || subformulas < 0 || nodes < 0 || text[20] != '\n') return 1;
    if (states < 1 || states > 256 || edges < 1 || edges > 2048 || subformulas < 1 || subformulas > 32 || nodes < 1 || nodes > 8) return 2;
    if (length != 21 + 11 * states + 11 * edges + 16 * subformulas) return 3;
    const uint8_t *behind_states = text + 21 + 11 * states, *behind_edges = behind_states + 11 * edges;
    int bad_state = 0, bad_edge = 0, bad_subformula = 0;
    if ((*line = read_states(text + 21, &bad_state))) return 4;
    if ((*line = read_edges(behind_states, &bad_edge))) return 4;
    if ((*line = read_subformulas(behind_edges, &bad_subformula))) return 4;
    if ((*line = bad_state)) return 5;
    if ((*line = bad_edge)) return 6;
    if ((*line = without_edge())) return 7;
    if ((*line = bad_subformula)) return 8;
    return 0;
}
