/*
 * Lists a parcel through the C interface: for each word its index, its digits and the text of
 * its instruction or its refusal, then the verdict, with the half of the register at fault. Of a
 * parcel that doesn't open, the verdict only.
 * Exit status 0 where it is accepted, 1 where it is refused, 2 where the file can't be read
 * or standard output can't be written.
 *
 * From the root of the repository, after `rust/library`:
 *     cc -std=c99 -O2 -Iinclude examples/list.c target/staticlib/libcapi.a -o list
 *     ./list FILE
 */
#include <inttypes.h>
#include <stdio.h>

#include "vsp.h"

/* The longest parcel, and one byte more to tell a file that is too long. */
#define LONGEST (24 + 24 * 2048)
static uint8_t parcel[LONGEST + 1];

/* The length of the file's start, or -1. */
static long load(const char *name)
{
    FILE *file = fopen(name, "rb");
    if (file == NULL)
        return -1;
    size_t length = fread(parcel, 1, sizeof parcel, file);
    int failed = ferror(file);
    fclose(file);
    return failed ? -1 : (long)length;
}

static void list_word(unsigned index, const uint8_t *word)
{
    uint8_t form[VSP_FORM], text[VSP_TEXT];
    uint32_t answer = vsp_read(word, VSP_WORD, form);
    printf("%04u ", index);
    for (int k = VSP_WORD - 1; k >= 0; k--)
        printf("%02X", word[k]);
    if (answer == 0) {
        vsp_text(form, text);
        printf(" %s\n", (const char *)text);
    } else {
        printf(" refused %u place %u\n", VSP_NUMBER(answer), VSP_PLACE(answer));
    }
}

/* Whether the verdict is about the words or notes of a parcel that opens. */
static int opens(uint64_t verdict)
{
    unsigned number = VSP_NUMBER(verdict);
    return number < 10 || number > 13;
}

static void print_verdict(uint64_t verdict)
{
    static const char *const halves[] = {"", " low", " high"};
    if (verdict == 0)
        printf("ACCEPTED\n");
    else
        printf("REFUSED %u place %u index %u register %u%s\n", VSP_NUMBER(verdict),
               VSP_PLACE(verdict), VSP_INDEX(verdict), VSP_REGISTER_OF(verdict),
               halves[VSP_HALF(verdict)]);
}

/* The listing; the verdict of vsp_check. */
static uint64_t list_parcel(size_t length)
{
    uint64_t verdict = vsp_check(parcel, length);
    if (opens(verdict)) {
        /* Version 2 has a longer header. */
        const uint8_t *words = parcel + (parcel[3] == 2 ? 24 : 16);
        unsigned instructions = parcel[6] + 256u * parcel[7];
        for (unsigned index = 0; index < instructions; index++)
            list_word(index, words + VSP_WORD * index);
    }
    print_verdict(verdict);
    return verdict;
}

/* Whether all that was printed could be written. */
static int written(void)
{
    int failed = ferror(stdout);
    return fclose(stdout) == 0 && !failed;
}

int main(int count, char **arguments)
{
    if (count != 2) {
        fprintf(stderr, "usage: list FILE\n");
        return 2;
    }
    long length = load(arguments[1]);
    if (length < 0) {
        fprintf(stderr, "list: can't read %s\n", arguments[1]);
        return 2;
    }
    uint64_t verdict = list_parcel((size_t)length);
    if (!written()) {
        fprintf(stderr, "list: can't write standard output\n");
        return 2;
    }
    return verdict == 0 ? 0 : 1;
}
