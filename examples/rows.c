/*
 * Lists the instruction table's rows by opcode through the C interface: a line for each opcode
 * that has any, with the opcode in hexadecimal and its row numbers in row order. Exit status 0,
 * or 2 where standard output can't be written.
 *
 * From the root of the repository, after `rust/library`:
 *     cc -std=c99 -O2 -Iinclude examples/rows.c target/staticlib/libcapi.a -o rows
 *     ./rows
 */
#include <inttypes.h>
#include <stdio.h>

#include "vsp.h"

/* An opcode has nine bits. */
#define OPCODES 512

static void list_rows(uint64_t opcode)
{
    uint64_t k = 0;
    uint32_t row = vsp_row_of(opcode, k);
    if (row == VSP_NO_ROW)
        return;
    printf("%03" PRIX64 ":", opcode);
    while (row != VSP_NO_ROW) {
        printf(" %" PRIu32, row);
        row = vsp_row_of(opcode, ++k);
    }
    printf("\n");
}

/* Whether all that was printed could be written. */
static int written(void)
{
    int failed = ferror(stdout);
    return fclose(stdout) == 0 && !failed;
}

int main(void)
{
    for (uint64_t opcode = 0; opcode < OPCODES; opcode++)
        list_rows(opcode);
    if (!written()) {
        fprintf(stderr, "rows: can't write standard output\n");
        return 2;
    }
    return 0;
}
