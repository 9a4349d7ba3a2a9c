/* The line relay over a table that is kept in a file: keep FILE [SLOTS].
 *
 * A file that is not there is begun, with SLOTS slots (8 if not said). One that is there keeps the slots it has, whatever SLOTS says, and must hold
 * a sound table, or the relay does not start: it says "error: bad table" and exits with 11.
 *
 * A line that changes the table has it written to FILE.new, forced to the disk and renamed to FILE before it is answered. So FILE is at every
 * moment a whole table, whenever the relay is killed, and holds every event whose OK a client has seen. The whole table is written each time, 4.3 MB
 * if it has the most slots. Two relays must not share a file. */
#define _POSIX_C_SOURCE 200809L

#include <errno.h>
#include <fcntl.h>
#include <libgen.h>
#include <stdio.h>
#include <stdlib.h>
#include <string.h>
#include <unistd.h>

#include "plavdrosa.h"

#define FAILED 1
#define USAGE 2

static uint8_t table[PLAVDROSA_TABLE_SIZE(PLAVDROSA_MAX_CAPACITY) + 1];
static uint8_t before[sizeof table];
static uint8_t line[PLAVDROSA_LINE_SIZE];
static uint8_t chunk[65536];
static uint8_t out[PLAVDROSA_OUTPUT_SIZE(PLAVDROSA_MAX_CAPACITY)];
static size_t table_len;
static char *file, *new_file, *folder;

static void die(const char *what) {
    fprintf(stderr, "keep: %s: %s\n", what, strerror(errno));
    exit(FAILED);
}

static void *made(void *p) {
    if (p == NULL)
        die("memory");
    return p;
}

/* FILE.new beside FILE, and the folder that both stand in. */
static void name_files(const char *path) {
    char *copy = (char *)made(strdup(path));
    file = (char *)made(strdup(path));
    new_file = (char *)made(malloc(strlen(path) + 5));
    strcat(strcpy(new_file, path), ".new");
    folder = (char *)made(strdup(dirname(copy)));
    free(copy);
}

static void write_whole(int to, const uint8_t *from, size_t len, const char *what) {
    while (len > 0) {
        ssize_t n = write(to, from, len);
        if (n < 0 && errno != EINTR)
            die(what);
        if (n > 0) {
            from += n;
            len -= (size_t)n;
        }
    }
}

static void save(void) {
    int f = open(new_file, O_WRONLY | O_CREAT | O_TRUNC, 0666);
    if (f < 0)
        die(new_file);
    write_whole(f, table, table_len, new_file);
    if (fsync(f) != 0 || close(f) != 0 || rename(new_file, file) != 0)
        die(new_file);
    f = open(folder, O_RDONLY);
    if (f < 0 || fsync(f) != 0 || close(f) != 0)
        die(folder);
    memcpy(before, table, table_len);
}

/* Reads the table; one byte more than any table has tells that the file is too long. */
static void load(int f) {
    ssize_t n;
    while ((n = read(f, table + table_len, sizeof table - table_len)) != 0) {
        if (n < 0 && errno != EINTR)
            die(file);
        if (n > 0)
            table_len += (size_t)n;
    }
    close(f);
    if (table_len == sizeof table || plavdrosa_sound(table, table_len) != PLAVDROSA_DONE) {
        fprintf(stderr, "keep: %s: error: bad table\n", file);
        exit(PLAVDROSA_BAD_TABLE);
    }
    memcpy(before, table, table_len);
}

static void begin(size_t slots) {
    int f = open(file, O_RDONLY);
    if (f >= 0) {
        load(f);
        return;
    }
    if (errno != ENOENT)
        die(file);
    if (plavdrosa_format(table, sizeof table, slots) != PLAVDROSA_DONE) {
        fprintf(stderr, "keep: a table has 1 to %d slots\n", PLAVDROSA_MAX_CAPACITY);
        exit(USAGE);
    }
    table_len = PLAVDROSA_TABLE_SIZE(slots);
    save();
}

/* What a line was answered is told once the table is on the disk. */
static void tell(uint8_t row, size_t written) {
    if (row != PLAVDROSA_DONE) {
        fprintf(stderr, "keep: row %d\n", row);
        exit(FAILED);
    }
    if (memcmp(before, table, table_len) != 0)
        save();
    write_whole(STDOUT_FILENO, out, written, "standard output");
}

static void feed(size_t *kept, size_t got) {
    size_t at = 0;
    while (at < got) {
        size_t used = 0, written = 0;
        uint8_t row = plavdrosa_turn(table, table_len, line, sizeof line, kept, chunk + at, got - at, out, sizeof out, &used, &written);
        tell(row, written);
        at += used;
    }
}

int main(int argc, char **argv) {
    size_t kept = 0, written = 0;
    ssize_t got;
    uint8_t row;
    if (argc < 2 || argc > 3) {
        fprintf(stderr, "usage: keep FILE [SLOTS]\n");
        return USAGE;
    }
    name_files(argv[1]);
    begin(argc == 3 ? strtoul(argv[2], NULL, 10) : 8);
    while ((got = read(STDIN_FILENO, chunk, sizeof chunk)) != 0) {
        if (got > 0)
            feed(&kept, (size_t)got);
        else if (errno != EINTR)
            die("standard input");
    }
    row = plavdrosa_finish(table, table_len, line, sizeof line, kept, out, sizeof out, &written);
    tell(row, written);
    return 0;
}
