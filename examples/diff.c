/*
 * Compares two parcels through the C interface: prints a line for each line of the list of
 * what differs, with the index, the field and both contents, row numbers in decimal and all
 * else in hexadecimal; a set of halves of registers is named low or high. With a number k it
 * prints line k alone, counted from 0, if there is one.
 * Exit status 0 where there is nothing to print, 1 where there is, 2 where a parcel is refused,
 * a file can't be read or standard output can't be written.
 *
 * From the root of the repository, after `rust/library`:
 *     cc -std=c99 -O2 -Iinclude examples/diff.c target/staticlib/libcapi.a -o diff
 *     ./diff APPROVED DELIVERED [K]
 */
#include <errno.h>
#include <inttypes.h>
#include <stdio.h>
#include <stdlib.h>

#include "vsp.h"

/* The longest parcel, and one byte more to tell a file that is too long. */
#define ROOM (24 + 24 * 2048 + 1)

struct parcel {
    const char *name;
    size_t length;
    uint8_t bytes[ROOM];
};

static struct parcel approved, delivered;
static uint64_t lines[VSP_DIFF_NUMBERS];

/* Takes the start of a file; whether it could be read, and if not it says so. */
static int load(const char *name, struct parcel *parcel)
{
    parcel->name = name;
    FILE *file = fopen(name, "rb");
    if (file != NULL) {
        parcel->length = fread(parcel->bytes, 1, ROOM, file);
        int failed = ferror(file);
        fclose(file);
        if (!failed)
            return 1;
    }
    fprintf(stderr, "diff: can't read %s\n", name);
    return 0;
}

/* The number that a text says in decimal; whether it says one. */
static int parse(const char *text, size_t *k)
{
    char *end;
    errno = 0;
    unsigned long long number = strtoull(text, &end, 10);
    *k = (size_t)number;
    return *text >= '0' && *text <= '9' && *end == '\0' && errno == 0 && number <= SIZE_MAX;
}

static void print_line(const uint64_t *line)
{
    static const char *const names[] = {"row",      "page",  "flow",    "destination", "source",
                                        "modifier", "added", "removed", "entry set",   "note",
                                        "version"};
    static const char *const halves[] = {"", " low", " high"};
    unsigned what = VSP_DIFF_WHAT(line[0]), which = VSP_DIFF_WHICH(line[0]);
    printf("%04u %s", VSP_DIFF_INDEX(line[0]), names[what]);
    if (what == VSP_DIFF_SOURCE || what == VSP_DIFF_MODIFIER)
        printf(" %u", which);
    if (what == VSP_DIFF_ENTRY || what == VSP_DIFF_NOTE)
        printf("%s", halves[which]);
    if (what == VSP_DIFF_ROW)
        printf(": %" PRIu64 " %" PRIu64 "\n", line[1], line[2]);
    else
        printf(": %" PRIX64 " %" PRIX64 "\n", line[1], line[2]);
}

/* Says which parcel is refused, and why. */
static void complain(uint64_t answer)
{
    const char *name = VSP_PARCEL(answer) == 1 ? approved.name : delivered.name;
    fprintf(stderr, "diff: %s: refused %u place %u index %u register %u\n", name, VSP_NUMBER(answer),
            VSP_PLACE(answer), VSP_INDEX(answer), VSP_REGISTER_OF(answer));
}

/* Prints the whole list; the exit status. */
static int print_all(void)
{
    uint64_t answer =
        vsp_diff_lines(approved.bytes, approved.length, delivered.bytes, delivered.length, lines);
    if (VSP_NUMBER(answer) != 0) {
        complain(answer);
        return 2;
    }
    for (size_t k = 0; k < VSP_LINES(answer); k++)
        print_line(lines + VSP_DIFF_LINE * k);
    return VSP_LINES(answer) == 0 ? 0 : 1;
}

/* Prints line k; the exit status. */
static int print_one(size_t k)
{
    uint64_t line[VSP_DIFF_LINE];
    uint64_t answer =
        vsp_diff_line(approved.bytes, approved.length, delivered.bytes, delivered.length, k, line);
    if (answer == VSP_FEWER)
        return 0;
    if (answer != 0) {
        complain(answer);
        return 2;
    }
    print_line(line);
    return 1;
}

/* Whether all that was printed could be written. */
static int written(void)
{
    int failed = ferror(stdout);
    return fclose(stdout) == 0 && !failed;
}

int main(int count, char **arguments)
{
    size_t k = 0;
    if (count < 3 || count > 4 || (count == 4 && !parse(arguments[3], &k))) {
        fprintf(stderr, "usage: diff APPROVED DELIVERED [K]\n");
        return 2;
    }
    if (!load(arguments[1], &approved) || !load(arguments[2], &delivered))
        return 2;
    int status = count == 4 ? print_one(k) : print_all();
    if (!written()) {
        fprintf(stderr, "diff: can't write standard output\n");
        return 2;
    }
    return status;
}
