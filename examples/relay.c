/* The line relay: messages on standard input, one a line, over a fresh table of 8 slots; their replies on standard output. */
#include <stdio.h>
#include <unistd.h>

#include "plavdrosa.h"

#define SLOTS 8

static uint8_t table[PLAVDROSA_TABLE_SIZE(SLOTS)];
static uint8_t line[PLAVDROSA_LINE_SIZE];
static uint8_t chunk[65536];
static uint8_t out[PLAVDROSA_OUTPUT_SIZE(SLOTS)];

/* Answers every line that ends in the chunk. */
static int feed(size_t *kept, size_t got) {
    size_t at = 0;
    while (at < got) {
        size_t used, written;
        if (plavdrosa_turn(table, sizeof table, line, sizeof line, kept, chunk + at, got - at, out, sizeof out, &used, &written) != PLAVDROSA_DONE)
            return 0;
        at += used;
        fwrite(out, 1, written, stdout);
    }
    return fflush(stdout) == 0;
}

int main(void) {
    size_t kept = 0, written;
    ssize_t got;
    if (plavdrosa_format(table, sizeof table, SLOTS) != PLAVDROSA_DONE)
        return 1;
    while ((got = read(STDIN_FILENO, chunk, sizeof chunk)) > 0)
        if (!feed(&kept, (size_t)got))
            return 1;
    if (got < 0 || plavdrosa_finish(table, sizeof table, line, sizeof line, kept, out, sizeof out, &written) != PLAVDROSA_DONE)
        return 1;
    fwrite(out, 1, written, stdout);
    return fflush(stdout) == 0 ? 0 : 1;
}
