/* Hemvuda: Lezer grammar files, read, measured, compared and written in one fixed way. For C99 or later, and for C++.
 *
 * Link libhemvuda.a (Linux on x86-64). docs/LIBRARY.md shows how, with examples.
 *
 * What the calls promise is proved: each is equal to a definition in crates/grammar/specs, whatever text, memory and
 * lengths it is handed. So nothing need be checked before a call, but what the language C asks, which is:
 *
 *   - A pointer is valid for the length that follows it, and is not NULL, also where the length is 0.
 *   - Lengths of `records` count words (uint32_t), all others count bytes. `records` is aligned as uint32_t is, to 4 bytes.
 *   - What a call writes to (pointers without const) overlaps with nothing else that it is handed. What it only reads may overlap.
 *   - What is handed over is not written by anyone else until the call returns.
 *
 * What a call does with what it is handed: it reads the text and writes to what is lent to it, as each call says. It
 * keeps no pointer after it returns. It takes no memory from a heap, opens no file, prints nothing, and always returns.
 *
 * Threads. The library has no variables of its own, so it is reentrant: calls may run at the same time, as long as none
 * writes to memory that another one uses.
 *
 * Stack. A text cannot make a call go deeper than its limits allow: 64 levels, and 64 repeats one over another (cause
 * 3). How much stack that takes is measured, and not proved: see HEMVUDA_STACK_TO_READ below.
 */
#ifndef HEMVUDA_H
#define HEMVUDA_H

#include <stddef.h>
#include <stdint.h>

#ifdef __cplusplus
extern "C" {
#endif

/* ------------------------------------------------------------------------------------------------------------------ version */

/* The version of this header: major * 10000 + minor * 100 + patch. */
#define HEMVUDA_VERSION 10000

/* The version of the library that is linked: HEMVUDA_VERSION where header and library come from one release. */
uint32_t hemvuda_version(void);

/* ------------------------------------------------------------------------------------------------------------------ answers */

/* What every call that reads or compares gives back, by value. `cause` is 0 exactly where there is no refusal.
 *
 * No refusal: cause, place, line and column are 0; first and second are what the call says; third is 0.
 * A refusal:  cause is one of HEMVUDA_REFUSED_.., place is how many bytes of the text stand before it, line is 1 and the line feeds
 *             before the place, column is the bytes since the last of these line feeds or since the text's start (from 0);
 *             first, second and third are 0.
 */
typedef struct {
    uint64_t cause;
    uint64_t place;
    uint64_t line;
    uint64_t column;
    uint64_t first;
    uint64_t second;
    uint64_t third;
} hemvuda_answer;

/* ------------------------------------------------------------------------------------------------------------------- causes
 *
 * With each, what its place is. 1 and 2 are looked for first, then 3 to 21 in the order of the text, then 22, 23 and
 * 24. hemvuda_measure refuses with 1 to 21, hemvuda_read with 1 to 23, hemvuda_normal_text with 1 to 24,
 * hemvuda_structurally_eq with 25.
 */
#define HEMVUDA_REFUSED_TOO_LONG 1              /* text over HEMVUDA_LONGEST bytes              0                                     */
#define HEMVUDA_REFUSED_NOT_UTF8 2              /* not UTF-8                                    the first ill-formed sequence         */
#define HEMVUDA_REFUSED_TOO_DEEP 3              /* level 65, or a 65th stacked repeat           the level's first token, or the mark  */
#define HEMVUDA_REFUSED_UNEXPECTED_CHARACTER 4  /* unexpected character, unclosed comment       that character, or its start          */
#define HEMVUDA_REFUSED_UNTERMINATED_STRING 5   /* unterminated string                          its quote                             */
#define HEMVUDA_REFUSED_AT_WITHOUT_NAME 6       /* @ without a name                             the @                                 */
#define HEMVUDA_REFUSED_UNTERMINATED_SET 7      /* unterminated set                             its start                             */
#define HEMVUDA_REFUSED_UNEXPECTED_TOKEN 8      /* unexpected token                             the token                             */
#define HEMVUDA_REFUSED_TOP_WITHOUT_NAME 9      /* @top without a name at top level             the token after it                    */
#define HEMVUDA_REFUSED_SECOND_TOKENS 10        /* second @tokens                               the keyword                           */
#define HEMVUDA_REFUSED_SECOND_PRECEDENCE 11    /* second @precedence at top level              the keyword                           */
#define HEMVUDA_REFUSED_SECOND_CONTEXT 12       /* second @context                              the keyword                           */
#define HEMVUDA_REFUSED_SECOND_SKIP 13          /* second main @skip                            the keyword                           */
#define HEMVUDA_REFUSED_NO_TOP 14               /* no @top anywhere                             the text's length                     */
#define HEMVUDA_REFUSED_INLINE_PARAMETERS 15    /* inline rule with parameters                  its name, or its [ if it has none     */
#define HEMVUDA_REFUSED_ONE_PART 16             /* specialize or extend: one part, no literal   the keyword                           */
#define HEMVUDA_REFUSED_EMPTY_ARM 17            /* choice arm empty or only markers             the first such arm's start            */
#define HEMVUDA_REFUSED_BAD_PRECEDENCE 18       /* token precedence: no name or literal         its start                             */
#define HEMVUDA_REFUSED_BAD_CONFLICT 19         /* token conflict: no name or literal           its start                             */
#define HEMVUDA_REFUSED_REVERSED_SPAN 20        /* reversed span in a set                       the set's start                       */
#define HEMVUDA_REFUSED_OVERLAPPING_SPAN 21     /* overlapping spans in a set                   the set's start                       */
#define HEMVUDA_REFUSED_RECORDS_FULL 22         /* records need more words than are lent        0                                     */
#define HEMVUDA_REFUSED_TEXTS_FULL 23           /* texts need more bytes than are lent          0                                     */
#define HEMVUDA_REFUSED_OUTPUT_FULL 24          /* normal text over HEMVUDA_LONGEST bytes, or
                                                   over the lent output                         0                                     */
#define HEMVUDA_REFUSED_NOT_A_TREE 25           /* compared words that are no expression        0                                     */

/* ------------------------------------------------------------------------------------------------------------- how much to lend
 *
 * Nothing lent is ever too much: memory past what a call uses is left as it was.
 */

/* The most bytes that a text may have, and that a normal text may have. Lend an output of so many bytes, and 24 comes
 * only for a normal text that is longer than any may be. */
#define HEMVUDA_LONGEST 65535

/* As many words and as many bytes as the tree of a text of n bytes takes at most: with so many lent, 22 and 23 never
 * come. This is proved of hemvuda_measure, hemvuda_read and hemvuda_normal_text themselves
 * (crates/hemvuda/specs/Bounds.antt). HEMVUDA_RECORDS_FOR counts words, so it takes 4 times as many bytes. For the
 * longest text they are 1,834,987 words (7,339,948 bytes) and 393,210 bytes. Most texts need far less, and
 * hemvuda_measure says how much. */
#define HEMVUDA_RECORDS_FOR(n) ((size_t)28 * (n) + 7)
#define HEMVUDA_TEXTS_FOR(n) ((size_t)6 * (n))

/* Bytes of stack that are enough for hemvuda_measure, hemvuda_read and hemvuda_structurally_eq, and for
 * hemvuda_normal_text. They are measured, and not proved: compare/stack runs the calls on a stack that is filled with
 * one byte before, on some 6,200 texts that go as deep as a text may, with long lists at each level. The most that was
 * used is 169,560 bytes to measure, 170,056 to read, 328 to compare and 746,360 to write a normal text; so
 * HEMVUDA_STACK_TO_WRITE leaves room. Only a text with 64 levels and 64 repeats over each takes so much: without such
 * repeats writing takes 234,744 bytes at most, and the grammars in examples/ take less than 14,000 for any call. */
#define HEMVUDA_STACK_TO_READ 196608
#define HEMVUDA_STACK_TO_WRITE 1048576

/* ------------------------------------------------------------------------------------------------------------------- records
 *
 * A tree is stored as records of HEMVUDA_RECORD words each and, beside them, the bytes of its texts. A record's
 * children stand before it, each with all that is below it, in the order given below; the last record is the root, of
 * kind HEMVUDA_KIND_GRAMMAR. Texts are neither ended by a 0 nor separated: they follow one another in the order of
 * records.
 */
#define HEMVUDA_RECORD 7

/* The words of a record. */
#define HEMVUDA_WORD_KIND 0        /* HEMVUDA_KIND_.. */
#define HEMVUDA_WORD_START 1       /* bytes of the text before it */
#define HEMVUDA_WORD_TEXT 2        /* bytes of the texts before its text; 0 where that is empty */
#define HEMVUDA_WORD_TEXT_LENGTH 3 /* how many bytes its text has; 0 for a kind without a text */
#define HEMVUDA_WORD_VALUE 4       /* as its kind says; else 0 */
#define HEMVUDA_WORD_SECOND 5      /* as its kind says (spans alone); else 0 */
#define HEMVUDA_WORD_CHILDREN 6    /* how many children it has */

/* Kinds. In brackets what a record of that kind has: its text, its value, and then its children in their order.
 * `expression` is a record of one of the kinds 30 to 37, 39 and 40; `source` is HEMVUDA_KIND_SOURCE; ".." says any
 * number of them, none too.
 */
#define HEMVUDA_KIND_GRAMMAR 1              /* value: HEMVUDA_DETECT_DELIM or 0. Children in groups, each in the order of the text:
                                               top rules, rules, tokens, local tokens, contexts, external tokens, external
                                               specializers, prop sources, precedences, main skips, scoped skips, dialects,
                                               external props */
#define HEMVUDA_KIND_TOP_RULE 2             /* @top. Text: its name. Props.., params.., expression */
#define HEMVUDA_KIND_RULE 3                 /* text: its name. Props.., params.., expression */
#define HEMVUDA_KIND_PARAM 4                /* text: its name */
#define HEMVUDA_KIND_PROP 5                 /* text: its name. Value: HEMVUDA_PROP_AT or 0. Part texts and part names.. */
#define HEMVUDA_KIND_PART_TEXT 6            /* text: what the string, name or dot stands for */
#define HEMVUDA_KIND_PART_NAME 7            /* { name }. Text: the name */
#define HEMVUDA_KIND_TOKENS 8               /* @tokens. Token precedences.., token conflicts.., rules.., token literals.. */
#define HEMVUDA_KIND_TOKEN_PRECEDENCE 9     /* @precedence in a block of tokens. Names and literals.. */
#define HEMVUDA_KIND_TOKEN_CONFLICT 10      /* @conflict in @tokens. Two of name or literal */
#define HEMVUDA_KIND_TOKEN_LITERAL 11       /* a literal in @tokens. Text: its value. Props.. */
#define HEMVUDA_KIND_LOCAL_TOKENS 12        /* @local tokens. Token precedences.., rules.., and at most one named node, which is @else */
#define HEMVUDA_KIND_NAMED_NODE 13          /* text: its name. Props.. */
#define HEMVUDA_KIND_CONTEXT 14             /* @context. Text: its name. Source */
#define HEMVUDA_KIND_SOURCE 15              /* the string after `from`. Text: its value. Its start is 0 */
#define HEMVUDA_KIND_EXTERNAL_TOKENS 16     /* @external tokens. Text: its name. Source, named nodes.., conflict names.. */
#define HEMVUDA_KIND_CONFLICT_NAME 17       /* in @conflict of @external tokens. Text: the name */
#define HEMVUDA_KIND_EXTERNAL_SPECIALIZER 18 /* @external extend or specialize. Text: its name. Value: HEMVUDA_SPECIALIZE_..
                                               Expression, source, named nodes.. */
#define HEMVUDA_KIND_PROP_SOURCE 19         /* @external propSource. Text: its name. Source */
#define HEMVUDA_KIND_PRECEDENCES 20         /* @precedence at top level. Precedence items.. */
#define HEMVUDA_KIND_PRECEDENCE_ITEM 21     /* text: its name. Value: HEMVUDA_PREC_.. */
#define HEMVUDA_KIND_MAIN_SKIP 22           /* @skip without a block. Expression */
#define HEMVUDA_KIND_SCOPED_SKIP 23         /* @skip with a block. Expression, top rules.., rules.. */
#define HEMVUDA_KIND_DIALECT 24             /* in @dialects. Text: its name */
#define HEMVUDA_KIND_EXTERNAL_PROP 25       /* @external prop. Text: its name here. External name, source */
#define HEMVUDA_KIND_EXTERNAL_NAME 26       /* text: the name that stands before `as` */

#define HEMVUDA_KIND_NAME 30                /* text: the name. Expressions, which are its arguments.. */
#define HEMVUDA_KIND_SPECIALIZE 31          /* @extend or @specialize. Value: HEMVUDA_SPECIALIZE_.. Props.., then two
                                               expressions: token and content */
#define HEMVUDA_KIND_INLINE_RULE 32         /* text: its name, `_anon` where it has none. Props.., expression */
#define HEMVUDA_KIND_CHOICE 33              /* expressions.. */
#define HEMVUDA_KIND_SEQUENCE 34            /* value: HEMVUDA_EMPTY or 0. Markers and expressions.., in the order of the text */
#define HEMVUDA_KIND_REPEAT 35              /* value: HEMVUDA_REPEAT_.. Expression */
#define HEMVUDA_KIND_LITERAL 36             /* text: its value */
#define HEMVUDA_KIND_SET 37                 /* value: HEMVUDA_INVERTED or 0. Spans.., in ascending order */
#define HEMVUDA_KIND_SPAN 38                /* in a set. Value: its first code. Second: one past its last code */
#define HEMVUDA_KIND_ANY 39                 /* _ */
#define HEMVUDA_KIND_CLASS 40               /* value: HEMVUDA_CLASS_.. */
#define HEMVUDA_KIND_AMBIGUITY_MARKER 41    /* ~ in a sequence. Text: its name */
#define HEMVUDA_KIND_PRECEDENCE_MARKER 42   /* ! in a sequence. Text: its name */

/* Values. */
#define HEMVUDA_DETECT_DELIM 1              /* grammar: @detectDelim stands in it */
#define HEMVUDA_PROP_AT 1                   /* prop: an @ stands before its name */
#define HEMVUDA_EMPTY 1                     /* sequence: explicitly empty, as ( ) or "" */
#define HEMVUDA_INVERTED 1                  /* set: ![..] and not $[..] */

#define HEMVUDA_SPECIALIZE_EXTEND 1
#define HEMVUDA_SPECIALIZE_SPECIALIZE 2

#define HEMVUDA_PREC_NONE 0
#define HEMVUDA_PREC_LEFT 1
#define HEMVUDA_PREC_RIGHT 2
#define HEMVUDA_PREC_CUT 3

#define HEMVUDA_REPEAT_OPTIONAL 0           /* ? */
#define HEMVUDA_REPEAT_ZERO_OR_MORE 1       /* * */
#define HEMVUDA_REPEAT_ONE_OR_MORE 2        /* + */

#define HEMVUDA_CLASS_ASCII_LETTER 0
#define HEMVUDA_CLASS_ASCII_LOWERCASE 1
#define HEMVUDA_CLASS_ASCII_UPPERCASE 2
#define HEMVUDA_CLASS_DIGIT 3
#define HEMVUDA_CLASS_WHITESPACE 4
#define HEMVUDA_CLASS_EOF 5

/* -------------------------------------------------------------------------------------------------------------------- calls */

/* How much memory the tree of a text takes; nothing is lent. first: words of records. second: bytes of texts. It
 * answers as hemvuda_read does where so much is lent, and takes about half its time. */
hemvuda_answer hemvuda_measure(const uint8_t *text, size_t text_len);

/* Reads a text: its tree stands then at the front of records and texts, and what is behind it is as it was. first: how
 * many words of records it takes. second: how many bytes of texts. A refusal leaves records and texts as they were. */
hemvuda_answer hemvuda_read(
    const uint8_t *text, size_t text_len,
    uint32_t *records, size_t records_len,
    uint8_t *texts, size_t texts_len);

/* Reads a text, and writes its normal text over the front of output; what is behind it is as it was. first: how many
 * bytes the normal text has (it is not ended by a 0). second: 0. Records and texts hold the tree, as after
 * hemvuda_read. A refusal leaves output as it was; under a refusal records and texts are as they were too, but under 24
 * they hold the tree.
 *
 * Two texts have the same normal text exactly when their trees are equal in all but starts. A normal text of up to
 * HEMVUDA_LONGEST bytes is accepted and is its own normal text. So two whole grammars are compared by the bytes of
 * their normal texts (lengths, then memcmp). */
hemvuda_answer hemvuda_normal_text(
    const uint8_t *text, size_t text_len,
    uint32_t *records, size_t records_len,
    uint8_t *texts, size_t texts_len,
    uint8_t *output, size_t output_len);

/* Compares two stored expressions. first: 1 where they are equal in all but starts and the @ of props, else 0. second:
 * 0. Refused with 25 where one of them is not one tree of an expression, whatever its words are.
 *
 * Each is handed over as a tree of its own: its records, of which the last is the expression, all of them and no
 * others; and its texts from their first byte on (more bytes behind them do no harm). HEMVUDA_WORD_TEXT counts from
 * that byte. The records of an expression within a grammar stand together, but their texts begin somewhere within the
 * grammar's: hand over the texts from the first one on, and records of which that place is taken off. docs/LIBRARY.md
 * and examples/c/rule.c show it: the expression of one rule.
 *
 * It compares expressions, not whole grammars: a grammar's root is none. For these see hemvuda_normal_text. */
hemvuda_answer hemvuda_structurally_eq(
    const uint32_t *left_records, size_t left_records_len,
    const uint8_t *left_texts, size_t left_texts_len,
    const uint32_t *right_records, size_t right_records_len,
    const uint8_t *right_texts, size_t right_texts_len);

#ifdef __cplusplus
}
#endif

#endif
