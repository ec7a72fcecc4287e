/*
 * Replays a parcel through the C interface: runs it for at most so many steps, from the numbers
 * in the file REGISTERS, and compares the registers after each step with those in the file TRACE.
 * Says how the run came to its stop, or why the parcel isn't run. The three files have 32-bit
 * little-endian numbers: 64 registers, at most 256 uniforms, and for each of at most 4096 steps
 * the 64 registers after it.
 * Exit status 0 where nothing differs, 1 where something does or the parcel is refused, 2 where a
 * file can't be read or standard output can't be written.
 *
 * From the root of the repository, after `rust/library`:
 *     cc -std=c99 -O2 -Iinclude examples/replay.c target/staticlib/libcapi.a -o replay
 *     ./replay PARCEL REGISTERS UNIFORMS TRACE LIMIT
 */
#include <errno.h>
#include <inttypes.h>
#include <stdio.h>
#include <stdlib.h>

#include "vsp.h"

/* The most uniforms that a program can name, and the most steps of a trace. */
#define UNIFORMS 256
#define STEPS 4096
/* The longest parcel, and one byte more to tell a file that is too long. */
#define LONGEST (24 + 24 * 2048)

static uint8_t parcel[LONGEST + 1];
static uint32_t registers[VSP_REGISTERS], uniforms[UNIFORMS], trace[VSP_REGISTERS * STEPS];
/* A file of numbers, with room for one byte more as well. */
static uint8_t bytes[4 * VSP_REGISTERS * STEPS + 1];

/* Takes the start of a file; whether it could be read, and if not it says so. */
static int load(const char *name, uint8_t *room, size_t size, size_t *length)
{
    FILE *file = fopen(name, "rb");
    if (file != NULL) {
        *length = fread(room, 1, size, file);
        int failed = ferror(file);
        fclose(file);
        if (!failed)
            return 1;
    }
    fprintf(stderr, "replay: can't read %s\n", name);
    return 0;
}

/* Takes a file of numbers; whether it is one, and if not it says so. */
static int load_numbers(const char *name, uint32_t *numbers, size_t most, size_t *count)
{
    size_t length;
    if (!load(name, bytes, 4 * most + 1, &length))
        return 0;
    if (length % 4 != 0 || length > 4 * most) {
        fprintf(stderr, "replay: %s isn't at most %zu whole numbers\n", name, most);
        return 0;
    }
    *count = length / 4;
    for (size_t k = 0; k < *count; k++) {
        const uint8_t *number = bytes + 4 * k;
        numbers[k] = number[0] | (uint32_t)number[1] << 8 | (uint32_t)number[2] << 16 |
                     (uint32_t)number[3] << 24;
    }
    return 1;
}

/* The limit that a text says in decimal; whether it says one. */
static int parse(const char *text, uint32_t *limit)
{
    char *end;
    errno = 0;
    unsigned long long number = strtoull(text, &end, 10);
    *limit = (uint32_t)number;
    return *text >= '0' && *text <= '9' && *end == '\0' && errno == 0 && number <= UINT32_MAX;
}

static void print_stop(const char *how, uint32_t steps, size_t recorded)
{
    uint32_t compared = steps < recorded ? steps : (uint32_t)recorded;
    const char *plural = steps == 1 ? "" : "s";
    printf("%s after %" PRIu32 " step%s, %" PRIu32 " compared\n", how, steps, plural, compared);
}

/* The registers are those after the last step. */
static void print_difference(uint32_t step, unsigned r)
{
    printf("DIFFERS at step %" PRIu32 ", r%u: %08" PRIX32 " replayed, %08" PRIX32 " recorded\n",
           step, r, registers[r], trace[VSP_REGISTERS * step + r]);
}

static void print_refusal(uint64_t answer)
{
    static const char *const halves[] = {"", " low", " high"};
    printf("REFUSED %u place %u index %u register %u%s\n", VSP_NUMBER(answer), VSP_PLACE(answer),
           VSP_INDEX(answer), VSP_REGISTER_OF(answer), halves[VSP_HALF(answer)]);
}

/* Prints what an answer says; the exit status. */
static int print_answer(uint64_t answer, size_t recorded)
{
    switch (VSP_NUMBER(answer)) {
    case 0:
        print_stop("END", VSP_STEPS(answer), recorded);
        return 0;
    case VSP_REPLAY_LIMIT:
        print_stop("LIMIT", VSP_STEPS(answer), recorded);
        return 0;
    case VSP_REPLAY_DIFFERS:
        print_difference(VSP_REPLAY_STEP(answer), VSP_REPLAY_REGISTER(answer));
        return 1;
    default:
        print_refusal(answer);
        return 1;
    }
}

/* Whether all that was printed could be written. */
static int written(void)
{
    int failed = ferror(stdout);
    return fclose(stdout) == 0 && !failed;
}

int main(int count, char **arguments)
{
    uint32_t limit = 0;
    if (count != 6 || !parse(arguments[5], &limit)) {
        fprintf(stderr, "usage: replay PARCEL REGISTERS UNIFORMS TRACE LIMIT\n");
        return 2;
    }
    size_t length, start, listed, recorded;
    if (!load(arguments[1], parcel, sizeof parcel, &length) ||
        !load_numbers(arguments[2], registers, VSP_REGISTERS, &start) ||
        !load_numbers(arguments[3], uniforms, UNIFORMS, &listed) ||
        !load_numbers(arguments[4], trace, VSP_REGISTERS * STEPS, &recorded))
        return 2;
    if (start != VSP_REGISTERS) {
        fprintf(stderr, "replay: %s isn't %d numbers\n", arguments[2], VSP_REGISTERS);
        return 2;
    }
    uint64_t answer =
        vsp_replay(parcel, length, registers, uniforms, listed, trace, recorded, limit);
    int status = print_answer(answer, recorded / VSP_REGISTERS);
    if (!written()) {
        fprintf(stderr, "replay: can't write standard output\n");
        return 2;
    }
    return status;
}
