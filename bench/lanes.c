/* The yardstick of `pim run`: lanes PROGRAM < VECTORS > RESULTS, for MAGIC programs, in plain C on one processor.
 *
 * A column of WORDS words holds one cell of 64 * WORDS rows. It does the work of `pim run` on the same bytes: it reads the
 * program, reads lines and checks their length and characters, packs 64 rows into a word, executes, unpacks, and writes
 * lines. It trusts the program. */
#include <stdint.h>
#include <stdio.h>
#include <stdlib.h>
#include <string.h>

#ifndef WORDS
#define WORDS 64
#endif
#define ROWS (64 * WORDS)
#define OPERANDS 4
#define BUFFER (1 << 20)

typedef struct {
    uint32_t count; /* how many operands; 0 for an init */
    uint32_t target;
    uint32_t operand[OPERANDS]; /* of an init: the place of its first cell among init_cells, and how many cells */
} Instr;

static uint32_t cells, inputs, outputs;
static size_t instrs;
static uint32_t *input_cell, *output_cell, *init_cells;
static Instr *instr;

static void fail(const char *why) {
    fprintf(stderr, "lanes: %s\n", why);
    exit(1);
}

static void *take(size_t count, size_t size) {
    void *memory = aligned_alloc(64, (count * size + 64) / 64 * 64);
    if (!memory) fail("no memory");
    return memory;
}

static char *text_of(const char *path) {
    FILE *file = fopen(path, "rb");
    if (!file || fseek(file, 0, SEEK_END)) fail("program");
    long size = ftell(file);
    rewind(file);
    char *text = take((size_t)size + 1, 1);
    if (fread(text, 1, (size_t)size, file) != (size_t)size) fail("program");
    text[size] = 0;
    fclose(file);
    return text;
}

/* The number after the next space, and the place behind it. */
static uint32_t number(char **at) {
    uint32_t value = 0;
    char *p = *at + 1;
    while (*p >= '0' && *p <= '9') value = value * 10 + (uint32_t)(*p++ - '0');
    *at = p;
    return value;
}

static char *next_line(char *at) {
    return strchr(at, '\n') + 1;
}

/* The cells of the lines that begin with a word. */
static char *ports(char *at, const char *word, uint32_t *cell, uint32_t *count) {
    size_t len = strlen(word);
    while (!strncmp(at, word, len)) {
        at += len;
        cell[(*count)++] = number(&at);
        at = next_line(at);
    }
    return at;
}

static char *instruction(char *at, Instr *one, uint32_t *init_end) {
    if (*at == 'i') {
        at += strlen("init");
        one->count = 0;
        one->operand[0] = *init_end;
        while (*at == ' ') init_cells[(*init_end)++] = number(&at);
        one->operand[1] = *init_end - one->operand[0];
    } else {
        at += strlen("nor");
        one->target = number(&at);
        while (*at == ' ' && one->count < OPERANDS) one->operand[one->count++] = number(&at);
    }
    return at + 1;
}

static void parse(char *text) {
    size_t size = strlen(text); /* no word that is kept takes less than two bytes */
    uint32_t init_end = 0;
    char *at = next_line(next_line(text)) + strlen("cells");
    cells = number(&at);
    input_cell = take(size / 2, sizeof *input_cell);
    output_cell = take(size / 2, sizeof *output_cell);
    init_cells = take(size / 2, sizeof *init_cells);
    at = ports(at + 1, "input", input_cell, &inputs);
    at = ports(at, "output", output_cell, &outputs) + strlen("cycles");
    instrs = number(&at);
    at++;
    instr = take(instrs, sizeof *instr);
    memset(instr, 0, instrs * sizeof *instr);
    for (size_t k = 0; k < instrs; k++) at = instruction(at, &instr[k], &init_end);
}

static void nor1(uint64_t *restrict t, const uint64_t *a) {
    for (int w = 0; w < WORDS; w++) t[w] &= ~a[w];
}

static void nor2(uint64_t *restrict t, const uint64_t *a, const uint64_t *b) {
    for (int w = 0; w < WORDS; w++) t[w] &= ~(a[w] | b[w]);
}

static void nor3(uint64_t *restrict t, const uint64_t *a, const uint64_t *b, const uint64_t *c) {
    for (int w = 0; w < WORDS; w++) t[w] &= ~(a[w] | b[w] | c[w]);
}

static void nor4(uint64_t *restrict t, const uint64_t *a, const uint64_t *b, const uint64_t *c, const uint64_t *d) {
    for (int w = 0; w < WORDS; w++) t[w] &= ~(a[w] | b[w] | c[w] | d[w]);
}

static void execute(uint64_t (*bank)[WORDS]) {
    for (const Instr *i = instr; i < instr + instrs; i++) {
        uint64_t *t = bank[i->target];
        const uint32_t *o = i->operand;
        switch (i->count) {
        case 0:
            for (uint32_t k = 0; k < o[1]; k++) memset(bank[init_cells[o[0] + k]], 255, sizeof *bank);
            break;
        case 1: nor1(t, bank[o[0]]); break;
        case 2: nor2(t, bank[o[0]], bank[o[1]]); break;
        case 3: nor3(t, bank[o[0]], bank[o[1]], bank[o[2]]); break;
        default: nor4(t, bank[o[0]], bank[o[1]], bank[o[2]], bank[o[3]]);
        }
    }
}

static char buffer[BUFFER];
static size_t start, end;

/* The next line, which has to end in a newline, or NULL at the end. */
static char *line(size_t *len) {
    char *newline = memchr(buffer + start, '\n', end - start);
    if (!newline) {
        memmove(buffer, buffer + start, end - start);
        end -= start;
        start = 0;
        size_t room = BUFFER - end;
        size_t got = fread(buffer + end, 1, room, stdin);
        end += got;
        newline = memchr(buffer, '\n', end);
        if (!newline && end == 0) return NULL;
        if (!newline) fail("line");
    }
    char *text = buffer + start;
    *len = (size_t)(newline - text);
    start += *len + 1;
    return text;
}

static void pack(uint64_t (*vectors)[WORDS], uint32_t row, const char *text) {
    unsigned wrong = 0;
    for (uint32_t k = 0; k < inputs; k++) {
        wrong |= (text[k] & 0xfe) ^ '0';
        vectors[k][row / 64] |= (uint64_t)(text[k] & 1) << row % 64;
    }
    if (wrong) fail("vector");
}

static void unpack(uint64_t (*bank)[WORDS], uint32_t row, char *text) {
    for (uint32_t k = 0; k < outputs; k++) text[k] = '0' + (bank[output_cell[k]][row / 64] >> row % 64 & 1);
    text[outputs] = '\n';
}

int main(int argc, char **argv) {
    if (argc != 2) fail("usage");
    parse(text_of(argv[1]));
    uint64_t(*bank)[WORDS] = take(cells, sizeof *bank);
    uint64_t(*vectors)[WORDS] = take(inputs, sizeof *vectors);
    char *text, *results = take(ROWS, outputs + 1);
    uint32_t rows = ROWS;
    while (rows == ROWS) {
        size_t len;
        memset(vectors, 0, inputs * sizeof *vectors);
        for (rows = 0; rows < ROWS && (text = line(&len)); rows++) {
            if (len != inputs) fail("vector");
            pack(vectors, rows, text);
        }
        memset(bank, 0, cells * sizeof *bank);
        for (uint32_t k = 0; k < inputs; k++) memcpy(bank[input_cell[k]], vectors[k], sizeof *bank);
        execute(bank);
        for (uint32_t row = 0; row < rows; row++) unpack(bank, row, results + (size_t)row * (outputs + 1));
        size_t size = (size_t)rows * (outputs + 1);
        if (fwrite(results, 1, size, stdout) != size) return 4;
    }
    return fflush(stdout) ? 4 : 0;
}
