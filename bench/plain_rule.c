// A plain, unverified program that prints what rule prints: what the proved one is measured against. It reads the text by
// recursive descent, one token ahead, climbs over the operators by their strength, and keeps each line once: a new one is
// searched among those kept.
#include <ctype.h>
#include <stdbool.h>
#include <stdint.h>
#include <string.h>
#include <unistd.h>

enum { ATOM = 1, NOT, AND, AX, EX, AU, EU, EG, AG };
enum { MAX_TEXT = 512, MAX_LINES = 32 };
// tokens; those of one byte are that byte
enum { END, WRONG, WORD_P, WORD_AX, WORD_EX, WORD_EG, WORD_AG, IMPLIES };

// zeros behind it
static uint8_t text[MAX_TEXT + 8];
static int length;
// the token that comes next, the atom's number if it is one, and the place behind it
static int token, atom, behind;

static struct { int kind, a, b; } line[MAX_LINES + 1];
static int lines;

static int symbol(const uint8_t *c) {
    switch (*c) {
    case '!': case '&': case '|': case '(': case ')': case '[': case ']': return behind += 1, *c;
    case '=': return behind += 2, c[1] == '>' ? IMPLIES : WRONG;
    default: return WRONG;
    }
}

static int word(const uint8_t *c, int width) {
    behind += width;
    if (width == 1) return *c == 'A' || *c == 'E' || *c == 'U' ? *c : WRONG;
    if (width == 2 && c[1] == 'X') return *c == 'A' ? WORD_AX : *c == 'E' ? WORD_EX : WRONG;
    if (width == 2 && c[1] == 'G') return *c == 'A' ? WORD_AG : *c == 'E' ? WORD_EG : WRONG;
    if (*c != 'p' || width > 3 || !isdigit(c[1])) return WRONG;
    atom = c[1] - '0';
    if (width == 2) return WORD_P;
    atom = 10 + c[2] - '0';
    return c[1] == '1' && c[2] >= '0' && c[2] <= '5' ? WORD_P : WRONG;
}

static void advance(void) {
    while (text[behind] == ' ') behind++;
    const uint8_t *c = text + behind;
    int width = 0;
    while (isalnum(c[width])) width++;
    token = behind == length ? END : width ? word(c, width) : symbol(c);
}

static bool take(int wanted) {
    if (token != wanted) return false;
    advance();
    return true;
}

// The line's number. No more than one line too many is kept.
static int keep(int kind, int a, int b) {
    for (int k = 0; k < lines; k++)
        if (line[k].kind == kind && line[k].a == a && line[k].b == b) return k;
    if (lines > MAX_LINES) return lines;
    line[lines].kind = kind, line[lines].a = a, line[lines].b = b;
    return lines++;
}

// These return the number of the line of what they read, or -1.
static int prefixed(void);
static int expression(int least);

static int prefix(int kind) {
    int f = prefixed();
    return f < 0 ? -1 : keep(kind, f, 0);
}

static int until(int kind) {
    int f, g;
    if (!take('[') || (f = expression(1)) < 0) return -1;
    if (!take('U') || (g = expression(1)) < 0) return -1;
    return take(']') ? keep(kind, f, g) : -1;
}

static int bracketed(void) {
    int f = expression(1);
    return f >= 0 && take(')') ? f : -1;
}

static int prefixed(void) {
    int first = token, number = atom;
    advance();
    switch (first) {
    case '!': return prefix(NOT);
    case WORD_AX: return prefix(AX);
    case WORD_EX: return prefix(EX);
    case WORD_EG: return prefix(EG);
    case WORD_AG: return prefix(AG);
    case WORD_P: return keep(ATOM, number, 0);
    case 'A': return until(AU);
    case 'E': return until(EU);
    case '(': return bracketed();
    default: return -1;
    }
}

static int strength(void) { return token == '&' ? 3 : token == '|' ? 2 : token == IMPLIES ? 1 : 0; }

// Operators that are at least so strong, and their operands.
static int expression(int least) {
    int f = prefixed();
    while (f >= 0 && strength() >= least) {
        int operator = token, own = strength();
        advance();
        if (operator == '|') f = keep(NOT, f, 0);
        int g = expression(operator == IMPLIES ? own : own + 1);
        if (g < 0) return -1;
        f = operator == '&' ? keep(AND, f, g) : keep(NOT, keep(AND, f, keep(NOT, g, 0)), 0);
    }
    return f;
}

static int read_rule(void) {
    if (length > MAX_TEXT) return 22;
    advance();
    if (expression(1) < 0 || token != END) return 22;
    return lines > MAX_LINES ? 23 : 0;
}

static uint8_t out[11 + 16 * MAX_LINES], *end = out;

// Five columns.
static void put(int n) {
    memset(end, ' ', 5);
    end += 5;
    uint8_t *c = end;
    do *--c = '0' + n % 10;
    while (n /= 10);
}

int main(void) {
    ssize_t got;
    while (length < MAX_TEXT + 2 && (got = read(0, text + length, MAX_TEXT + 2 - length)) > 0) length += got;
    if (length && text[length - 1] == '\n') text[--length] = 0;
    int number = read_rule();
    if (number) lines = 0;
    put(number), put(lines), *end++ = '\n';
    for (int k = 0; k < lines; k++) put(line[k].kind), put(line[k].a), put(line[k].b), *end++ = '\n';
    return write(1, out, end - out) < 0;
}
