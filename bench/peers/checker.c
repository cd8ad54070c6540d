/* checker CNF PROOF: checks an LRAT proof without RAT steps, and prints "accepted" or "rejected LINE".
   The peer of `arcv lrat` for times, no more: it trusts the form of its files, the size of their numbers and ids that are
   dense. Clauses stand in one array and are found by their ids; literals that are false are stamped with the step. */
#include <stdio.h>
#include <stdlib.h>
#include <string.h>

typedef unsigned long long word;

static void *grown(void *old, size_t size) {
    void *new = realloc(old, size);
    if (!new) { fputs("no memory\n", stderr); exit(8); }
    return new;
}

/* a file, read through a buffer */
static char buffer[1 << 16];
static size_t at, end;
static FILE *input;
static word line = 1;

static void open_file(const char *name) {
    input = fopen(name, "rb");
    if (!input) { fprintf(stderr, "cannot read %s\n", name); exit(5); }
    at = end = 0;
    line = 1;
}

static inline int byte(void) {
    if (at == end) {
        end = fread(buffer, 1, sizeof buffer, input);
        at = 0;
        if (!end) return EOF;
    }
    return (unsigned char)buffer[at++];
}

static void rejected(void) {
    printf("rejected %llu\n", line);
    exit(1);
}

/* the clauses: literals one clause after another, and where each id's clause begins and ends */
static int *lits;
static size_t used, room;
static size_t *start, *stop; /* stop 0: no clause */
static size_t ids;

static void push(int lit) {
    if (used == room) lits = grown(lits, (room = room ? 2 * room : 1024) * sizeof *lits);
    lits[used++] = lit;
}

static void put(size_t id, size_t from) {
    if (id >= ids) {
        size_t more = 2 * id + 1024;
        start = grown(start, more * sizeof *start);
        stop = grown(stop, more * sizeof *stop);
        memset(stop + ids, 0, (more - ids) * sizeof *stop);
        ids = more;
    }
    start[id] = from;
    stop[id] = used + 1;
}

/* which literals are false: those stamped with the step */
static unsigned *stamps;
static size_t codes;
static unsigned now;

static inline size_t code(int lit) { return lit < 0 ? 2 * (size_t)-(long)lit + 1 : 2 * (size_t)lit; }

static void mark(int lit) {
    size_t c = code(lit);
    if (c >= codes) {
        size_t more = 2 * c + 1024;
        stamps = grown(stamps, more * sizeof *stamps);
        memset(stamps + codes, 0, (more - codes) * sizeof *stamps);
        codes = more;
    }
    stamps[c] = now;
}

static inline int is_false(int lit) {
    size_t c = code(lit);
    return c < codes && stamps[c] == now;
}

/* the next number; EOF and line ends are told by what is given back */
enum { NUMBER, LETTER, LINE_END, FILE_END };
static long value;

static int next(void) {
    int c = byte(), minus = 0;
    while (c == ' ' || c == '\t' || c == '\r') c = byte();
    if (c == EOF) return FILE_END;
    if (c == '\n') return LINE_END;
    if (c == '-') { minus = 1; c = byte(); }
    if (c < '0' || c > '9') { value = c; return LETTER; }
    long n = 0;
    while (c >= '0' && c <= '9') { n = 10 * n + (c - '0'); c = byte(); }
    if (c == '\n') at--;
    value = minus ? -n : n;
    return NUMBER;
}

static void skip_line(void) {
    int c;
    do c = byte(); while (c != '\n' && c != EOF);
}

static size_t read_formula(const char *name) {
    size_t clauses = 0, from = 0;
    int kind;
    open_file(name);
    while ((kind = next()) != FILE_END) {
        if (kind == LETTER) { skip_line(); continue; }
        if (kind == LINE_END) continue;
        if (value == 0) { put(++clauses, from); from = used; }
        else push((int)value);
    }
    fclose(input);
    return clauses;
}

static int need_number(void) {
    if (next() != NUMBER) rejected();
    return value != 0;
}

static void drop_clauses(void) {
    while (need_number()) {
        if (value < 0 || (size_t)value >= ids || !stop[value]) rejected();
        stop[value] = 0;
    }
}

/* unit propagation along the hints has to end in a conflict */
static void follow(void) {
    int conflict = 0;
    while (need_number()) {
        if (conflict) continue;
        if (value < 0 || (size_t)value >= ids || !stop[value]) rejected();
        int unit = 0, different = 0;
        for (size_t k = start[value]; k + 1 < stop[value]; k++)
            if (!is_false(lits[k])) {
                if (unit && unit != lits[k]) { different = 1; break; }
                unit = lits[k];
            }
        if (different) rejected();
        if (!unit) conflict = 1;
        else mark(-unit);
    }
    if (!conflict) rejected();
}

int main(int argc, char **argv) {
    if (argc != 3) return 4;
    size_t last = read_formula(argv[1]);
    int refuted = 0, kind;
    open_file(argv[2]);
    for (;; line++) {
        kind = next();
        if (kind == FILE_END) break;
        if (kind == LINE_END) continue;
        if (kind == LETTER) { skip_line(); continue; }
        size_t id = (size_t)value;
        kind = next();
        if (kind == LETTER && value == 'd') {
            drop_clauses();
        } else {
            size_t from = used;
            now++;
            if (id <= last || kind != NUMBER) rejected();
            while (value) {
                push((int)value);
                mark((int)value);
                if (next() != NUMBER) rejected();
            }
            follow();
            put(id, from);
            last = id;
            if (used == from) refuted = 1;
        }
        kind = next();
        if (kind == FILE_END) break;
        if (kind != LINE_END) rejected();
    }
    if (!refuted) rejected();
    puts("accepted");
    return 0;
}
