// A plain, unverified program that prints what verdict prints: what the proved one is measured against. It reads the same
// texts, keeps the same table of cells and does the same rounds: sets by worklists, a (node, subformula) pair worked only
// when one of its own or its operands' cells was filled since, copying only where a cell was filled since.
#include "plain_reader.h"

#include <stdbool.h>
#include <stdio.h>
#include <string.h>
#include <unistd.h>

enum { OUTSIDE, BORDER, OWNED };
enum { FALSE, TRUE, EMPTY };
enum { MAX_TEXT = 25878 };

static uint8_t text[MAX_TEXT];
static int length;

static uint8_t place[8][256];
static uint8_t table[65536];
// column filled since its node was stepped; subformula filled since cells were copied
static bool stale[8][32], news[32];

static void cut(void) {
    for (int e = 0; e < edges; e++) place[owner[source[e]]][target[e]] = BORDER;
    for (int s = 0; s < states; s++) place[owner[s]][s] = OWNED;
}

static uint8_t *cell(int n, int s, int k) { return &table[(n * states + s) * subformulas + k]; }

static bool has_empty(int n, int k) {
    for (int s = 0; s < states; s++)
        if (place[n][s] != OUTSIDE && *cell(n, s, k) == EMPTY) return true;
    return false;
}

static int degree(int s) { return first[s + 1] - first[s]; }

// The least set: marks are 2 inside, 1 where a state may join by its successors (all of them, or some), 0 else.
static void spread(bool all, uint8_t *mark) {
    static uint8_t queue[256];
    int count = 0;
    uint16_t told[256] = {0};
    for (int s = 0; s < states; s++)
        if (mark[s] == 2) queue[count++] = s;
    for (int i = 0; i < count; i++)
        for (int e = head[queue[i]]; e; e = next[e - 1]) {
            int u = source[e - 1];
            if (mark[u] != 1 || (all && ++told[u] < degree(u))) continue;
            mark[u] = 2;
            queue[count++] = u;
        }
}

static int opposite(int value) { return value == EMPTY ? EMPTY : 1 - value; }

// The value of the least set's cells; the greatest set's have the other.
static int least_value(int k) { return kind[k] == AU || kind[k] == EU ? TRUE : FALSE; }

// An until, EG or AG. A state is in the least set where `start` is true, and may join where `grow` is.
static void sets(int n, int k, uint8_t *value) {
    bool all = kind[k] == AU || kind[k] == EG;
    int least = least_value(k);
    uint8_t start[256], grow[256], in[256], out[256];
    for (int s = 0; s < states; s++) {
        int own = *cell(n, s, k), a = *cell(n, s, left[k]), b = *cell(n, s, right[k]);
        start[s] = least == TRUE ? b : opposite(a), grow[s] = least == TRUE ? a : TRUE;
        bool free = own == EMPTY && place[n][s] == OWNED;
        in[s] = own == least || (free && start[s] == TRUE) ? 2 : free && grow[s] == TRUE ? 1 : 0;
    }
    spread(all, in);
    for (int s = 0; s < states; s++) {
        int own = *cell(n, s, k);
        bool free = own == EMPTY && place[n][s] == OWNED && in[s] != 2 && start[s] == FALSE;
        out[s] = own == opposite(least) ? 0 : !free ? 2 : grow[s] == FALSE ? 0 : 1;
    }
    spread(all, out);
    for (int s = 0; s < states; s++) value[s] = in[s] == 2 ? least : out[s] == 2 ? EMPTY : opposite(least);
}

static int next_value(int n, int s, int a, bool all) {
    if (place[n][s] != OWNED) return EMPTY;
    int truths = 0, falsities = 0;
    for (int e = first[s]; e < first[s + 1]; e++) {
        int v = *cell(n, target[e], a);
        truths += v == TRUE, falsities += v == FALSE;
    }
    int whole = degree(s);
    if (all ? truths == whole : truths > 0) return TRUE;
    if (all ? falsities > 0 : falsities == whole) return FALSE;
    return EMPTY;
}

static int step_column(int n, int k) {
    if (!has_empty(n, k)) return 0;
    uint8_t value[256];
    int a = left[k], b = right[k];
    for (int s = 0; s < states; s++) switch (kind[k]) {
        case ATOM: value[s] = label[s] >> a & 1; break;
        case NOT: value[s] = opposite(*cell(n, s, a)); break;
        case AND: {
            int x = *cell(n, s, a), y = *cell(n, s, b);
            value[s] = x == FALSE || y == FALSE ? FALSE : x == TRUE && y == TRUE ? TRUE : EMPTY;
            break;
        }
        case AX: value[s] = next_value(n, s, a, true); break;
        case EX: value[s] = next_value(n, s, a, false); break;
    }
    if (kind[k] >= AU) sets(n, k, value);
    int filled = 0;
    for (int s = 0; s < states; s++)
        if (place[n][s] != OUTSIDE && *cell(n, s, k) == EMPTY && value[s] != EMPTY) *cell(n, s, k) = value[s], filled++;
    return filled;
}

static bool bears(int n, int k) {
    if (stale[n][k]) return true;
    if (kind[k] == ATOM) return false;
    return stale[n][left[k]] || stale[n][right[k]];
}

static int step(int n) {
    int filled = 0;
    for (int k = 0; k < subformulas; k++) {
        if (!bears(n, k)) continue;
        int now = step_column(n, k);
        if (now) stale[n][k] = news[k] = true;
        filled += now;
    }
    memset(stale[n], 0, sizeof stale[n]);
    return filled;
}

static int copy(void) {
    int filled = 0;
    for (int k = 0; k < subformulas; k++) {
        if (!news[k]) continue;
        news[k] = false;
        if (kind[k] < AX) continue;
        for (int s = 0; s < states; s++) {
            int v = *cell(owner[s], s, k);
            if (v == EMPTY) continue;
            for (int n = 0; n < nodes; n++)
                if (place[n][s] == BORDER && *cell(n, s, k) == EMPTY) *cell(n, s, k) = v, stale[n][k] = true, filled++;
        }
    }
    return filled;
}

static int close_open(void) {
    int filled = 0;
    for (int k = 0; k < subformulas; k++)
        for (int s = 0; s < states; s++) {
            if (*cell(owner[s], s, k) != EMPTY) continue;
            for (int n = 0; n < nodes; n++) {
                stale[n][k] = true;
                for (int u = 0; u < states; u++)
                    if (place[n][u] != OUTSIDE && *cell(n, u, k) == EMPTY) *cell(n, u, k) = opposite(least_value(k)), filled++;
            }
            return filled;
        }
    return 0;
}

int main(void) {
    ssize_t got;
    while (length < MAX_TEXT && (got = read(0, text + length, MAX_TEXT - length)) > 0) length += got;
    int line, number = read_job(text, length, &line), rounds = 0, cells = 0, filled;
    if (number) {
        printf("%5d%5d%5d%5d%5d\n", number, line, 0, 0, 0);
        return 0;
    }
    cut();
    memset(table, EMPTY, sizeof table);
    memset(stale, true, sizeof stale);
    memset(news, true, sizeof news);
    do {
        filled = 0;
        for (int n = 0; n < nodes; n++) filled += step(n);
        filled += copy();
        if (!filled) filled = close_open();
        rounds++, cells += filled;
    } while (filled);
    printf("%5d%5d%5d%5d%5d\n", 0, 0, *cell(owner[0], 0, subformulas - 1), rounds, cells);
    return 0;
}
