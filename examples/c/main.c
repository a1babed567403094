/* Prints the normal text of each grammar file that is named, or why it has none. Status: 0 if all have one, 1 if some are refused, 2 if
 * some cannot be read or the output cannot be written. All memory is static. */
#include "hemvuda.h"

#include <inttypes.h>
#include <stdio.h>

/* One byte more than a text may have, so that a longer file is refused with 1 and not cut. */
static uint8_t text[HEMVUDA_LONGEST + 1];
/* With so much lent no text is ever refused with 22 or 23. */
static uint32_t records[HEMVUDA_RECORDS_FOR(HEMVUDA_LONGEST)];
static uint8_t texts[HEMVUDA_TEXTS_FOR(HEMVUDA_LONGEST)];
static uint8_t output[HEMVUDA_LONGEST];

#define COUNT(array) (sizeof(array) / sizeof((array)[0]))

/* Reads a file; gives 0 where it cannot be read. */
static int read_file(const char *name, size_t *len)
{
    FILE *file = fopen(name, "rb");
    if (file == NULL) {
        perror(name);
        return 0;
    }
    *len = fread(text, 1, sizeof text, file);
    int bad = ferror(file);
    if (bad)
        perror(name);
    fclose(file);
    return !bad;
}

static int print_normal_text(const char *name)
{
    size_t len;
    if (!read_file(name, &len))
        return 2;
    hemvuda_answer answer = hemvuda_normal_text(text, len, records, COUNT(records), texts, sizeof texts, output, sizeof output);
    if (answer.cause != 0) {
        fprintf(stderr, "%s: refused %" PRIu64 " at %" PRIu64 " line %" PRIu64 " column %" PRIu64 "\n", name, answer.cause, answer.place,
            answer.line, answer.column);
        return 1;
    }
    return fwrite(output, 1, answer.first, stdout) == answer.first ? 0 : 2;
}

int main(int argc, char **argv)
{
    if (hemvuda_version() != HEMVUDA_VERSION) {
        fprintf(stderr, "the header is of version %d, the library of %" PRIu32 "\n", HEMVUDA_VERSION, hemvuda_version());
        return 2;
    }
    int status = 0;
    for (int i = 1; i < argc; i++) {
        int one = print_normal_text(argv[i]);
        if (one > status)
            status = one;
    }
    if (fflush(stdout) != 0) {
        perror("standard output");
        return 2;
    }
    return status;
}
