/* How much stack the library's calls take. stack < TEXTS, one a line in hexadecimal, prints for each call the most that it took, and on which
 * line. Each call runs on a stack of its own that is filled with one byte before: what does not hold that byte afterwards was used. */
#define _GNU_SOURCE
#include "hemvuda.h"

#include <inttypes.h>
#include <stdio.h>
#include <stdlib.h>
#include <string.h>
#include <sys/mman.h>
#include <ucontext.h>

enum { STACK = 4 << 20, FILL = 0xA5 };

static uint8_t *stack;
/* From where on the stack may have been written to: below, it holds the fill. */
static size_t filled;
static ucontext_t here, there;

static uint8_t text[HEMVUDA_LONGEST + 1];
static size_t text_len;
static uint32_t records[HEMVUDA_RECORDS_FOR(HEMVUDA_LONGEST)];
static uint8_t texts[HEMVUDA_TEXTS_FOR(HEMVUDA_LONGEST)];
static uint8_t output[HEMVUDA_LONGEST];
static hemvuda_answer answer;

#define COUNT(array) (sizeof(array) / sizeof((array)[0]))

static void call_nothing(void)
{
}

static void call_measure(void)
{
    answer = hemvuda_measure(text, text_len);
}

static void call_read(void)
{
    answer = hemvuda_read(text, text_len, records, COUNT(records), texts, sizeof texts);
}

static void call_normal_text(void)
{
    answer = hemvuda_normal_text(text, text_len, records, COUNT(records), texts, sizeof texts, output, sizeof output);
}

/* The records that are compared. */
static size_t words;

static void call_structurally_eq(void)
{
    answer = hemvuda_structurally_eq(records, words, texts, sizeof texts, records, words, texts, sizeof texts);
}

/* How many bytes of the stack a call takes, with what it takes to get there. */
static size_t taken(void (*call)(void))
{
    memset(stack + filled, FILL, STACK - filled);
    if (getcontext(&there) != 0) {
        perror("getcontext");
        exit(2);
    }
    there.uc_stack.ss_sp = stack;
    there.uc_stack.ss_size = STACK;
    there.uc_link = &here;
    makecontext(&there, call, 0);
    if (swapcontext(&here, &there) != 0) {
        perror("swapcontext");
        exit(2);
    }
    filled = 0;
    while (filled < STACK && stack[filled] == FILL)
        filled++;
    return STACK - filled;
}

static struct {
    const char *name;
    void (*call)(void);
    size_t most;
    long line;
} calls[] = {
    {"hemvuda_measure", call_measure, 0, 0},
    {"hemvuda_read", call_read, 0, 0},
    {"hemvuda_normal_text", call_normal_text, 0, 0},
    {"hemvuda_structurally_eq", call_structurally_eq, 0, 0},
};

static void try_text(long line, size_t nothing)
{
    for (size_t i = 0; i < COUNT(calls); i++) {
        if (calls[i].call == call_structurally_eq) {
            /* All but the grammar's record and the one before it: the body of the rule, where the text is one rule without props or params. */
            hemvuda_answer read = hemvuda_read(text, text_len, records, COUNT(records), texts, sizeof texts);
            if (read.cause != 0)
                return;
            words = read.first - 2 * HEMVUDA_RECORD;
        }
        size_t most = taken(calls[i].call) - nothing;
        if (most > calls[i].most) {
            calls[i].most = most;
            calls[i].line = line;
        }
    }
}

static unsigned digit(char hex)
{
    return hex <= '9' ? (unsigned)(hex - '0') : (unsigned)(hex - 'a' + 10);
}

int main(void)
{
    stack = mmap(NULL, STACK, PROT_READ | PROT_WRITE, MAP_PRIVATE | MAP_ANONYMOUS | MAP_STACK, -1, 0);
    if (stack == MAP_FAILED) {
        perror("mmap");
        return 2;
    }
    size_t nothing = taken(call_nothing);
    static char hex[2 * sizeof text + 2];
    long line = 0;
    while (fgets(hex, sizeof hex, stdin) != NULL) {
        line++;
        text_len = strcspn(hex, "\n") / 2;
        for (size_t i = 0; i < text_len; i++)
            text[i] = (uint8_t)(digit(hex[2 * i]) << 4 | digit(hex[2 * i + 1]));
        try_text(line, nothing);
    }
    for (size_t i = 0; i < COUNT(calls); i++)
        printf("%s: %zu bytes at most, on line %ld of %ld\n", calls[i].name, calls[i].most, calls[i].line, line);
    return ferror(stdin) ? 2 : 0;
}
