/* Whether two grammar files have the same expression for a rule. rule NAME A B prints `same` (status 0) or `different` (1). Status 2 where
 * a file cannot be read, is refused, or has no rule of that name. Memory is measured first, and taken by malloc. */
#include "hemvuda.h"

#include <inttypes.h>
#include <stdio.h>
#include <stdlib.h>
#include <string.h>

struct tree {
    uint32_t *records; /* `words` of them */
    size_t words;
    uint8_t *texts; /* `bytes` of them */
    size_t bytes;
};

static const uint32_t *record(const struct tree *tree, size_t which)
{
    return tree->records + which * HEMVUDA_RECORD;
}

static int failed(const char *name, const char *why)
{
    fprintf(stderr, "%s: %s\n", name, why);
    return 0;
}

static int refused(const char *name, hemvuda_answer answer)
{
    fprintf(stderr, "%s: refused %" PRIu64 " at %" PRIu64 " line %" PRIu64 " column %" PRIu64 "\n", name, answer.cause, answer.place,
        answer.line, answer.column);
    return 0;
}

/* The tree of a file, in memory of just its size. Gives 0 where there is none, and says why. */
static int read_tree(const char *name, struct tree *tree)
{
    static uint8_t text[HEMVUDA_LONGEST + 1];
    FILE *file = fopen(name, "rb");
    if (file == NULL) {
        perror(name);
        return 0;
    }
    size_t len = fread(text, 1, sizeof text, file);
    int bad = ferror(file);
    fclose(file);
    if (bad)
        return failed(name, "cannot be read");
    hemvuda_answer answer = hemvuda_measure(text, len);
    if (answer.cause != 0)
        return refused(name, answer);
    tree->words = answer.first;
    tree->bytes = answer.second;
    tree->records = malloc(tree->words * sizeof *tree->records);
    /* A tree may have no bytes of texts, and malloc(0) may give NULL, which no call takes. */
    tree->texts = malloc(tree->bytes + 1);
    if (tree->records == NULL || tree->texts == NULL)
        return failed(name, "no memory");
    /* As was measured, so neither 22 nor 23 can come, and what was accepted is so again. */
    hemvuda_read(text, len, tree->records, tree->words, tree->texts, tree->bytes);
    return 1;
}

/* Where the record and all that is below it begins: children stand before it, each with all that is below it. */
static size_t first_below(const struct tree *tree, size_t which)
{
    for (size_t missing = record(tree, which)[HEMVUDA_WORD_CHILDREN]; missing > 0; missing--) {
        which--;
        missing += record(tree, which)[HEMVUDA_WORD_CHILDREN];
    }
    return which;
}

static int is_rule(const struct tree *tree, size_t which, const char *name)
{
    const uint32_t *words = record(tree, which);
    uint32_t kind = words[HEMVUDA_WORD_KIND];
    return (kind == HEMVUDA_KIND_RULE || kind == HEMVUDA_KIND_TOP_RULE)
        && words[HEMVUDA_WORD_TEXT_LENGTH] == strlen(name)
        && memcmp(tree->texts + words[HEMVUDA_WORD_TEXT], name, strlen(name)) == 0;
}

/* The expression of the first rule of that name, as a tree of its own within `tree`, which it changes. Gives 0 where there is no such rule. */
static int expression_of(struct tree *tree, const char *name, struct tree *expression)
{
    size_t count = tree->words / HEMVUDA_RECORD, rule = 0;
    while (rule < count && !is_rule(tree, rule, name))
        rule++;
    if (rule == count)
        return 0;
    /* A rule's last child is its expression, and stands right before it. */
    size_t last = rule - 1, first = first_below(tree, last);
    /* Its texts stand together too: from the first that is not empty to the last. */
    size_t from = 0, to = 0;
    for (size_t i = first; i <= last; i++) {
        const uint32_t *words = record(tree, i);
        if (words[HEMVUDA_WORD_TEXT_LENGTH] > 0) {
            if (to == 0)
                from = words[HEMVUDA_WORD_TEXT];
            to = words[HEMVUDA_WORD_TEXT] + words[HEMVUDA_WORD_TEXT_LENGTH];
        }
    }
    /* In a tree of its own, places count from its own first text. An empty text has place 0, and keeps it. */
    expression->records = tree->records + first * HEMVUDA_RECORD;
    expression->words = (last + 1 - first) * HEMVUDA_RECORD;
    expression->texts = tree->texts + from;
    expression->bytes = to - from;
    for (size_t i = 0; i < expression->words; i += HEMVUDA_RECORD)
        if (expression->records[i + HEMVUDA_WORD_TEXT_LENGTH] > 0)
            expression->records[i + HEMVUDA_WORD_TEXT] -= (uint32_t)from;
    return 1;
}

int main(int argc, char **argv)
{
    if (argc != 4) {
        fprintf(stderr, "usage: rule NAME A B\n");
        return 2;
    }
    struct tree trees[2], expressions[2];
    for (int i = 0; i < 2; i++) {
        if (!read_tree(argv[i + 2], &trees[i]))
            return 2;
        if (!expression_of(&trees[i], argv[1], &expressions[i])) {
            failed(argv[i + 2], "has no such rule");
            return 2;
        }
    }
    hemvuda_answer answer = hemvuda_structurally_eq(
        expressions[0].records, expressions[0].words, expressions[0].texts, expressions[0].bytes,
        expressions[1].records, expressions[1].words, expressions[1].texts, expressions[1].bytes);
    if (answer.cause != 0) {
        refused(argv[1], answer);
        return 2;
    }
    puts(answer.first != 0 ? "same" : "different");
    /* The memory is given back at the end of the program. */
    return answer.first != 0 ? 0 : 1;
}
