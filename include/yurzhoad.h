/*
 * Yurzhoad: proved selection for drug library documents.
 *
 * A rule, a test in Regular XPath, selects nodes of a library document. Two
 * evaluations find them. It is proved that both mark the same nodes, and that
 * these are the nodes that Regular XPath selects. A third takes one equality by
 * a list of its values; by all of them it does what the second does. docs/FORMAT.md
 * says how documents and rules are written and what a rule means.
 *
 * This file is the authority for C and C++. It needs C99 or C++11.
 *
 * BUILD AND LINK
 *
 *     (cd crates/exports && rt lib)
 *     cc -std=c99 -I include program.c crates/exports/out/libexports.a
 *
 * A C++ program is built in the same way. No other library is needed.
 *
 * A CALL
 *
 *     static uint16_t scratch[YURZHOAD_MAX_WORDS];
 *     static uint8_t marks[YURZHOAD_MAX_NODES];
 *
 *     yurzhoad_evaluation e = yurzhoad_evaluate_snippets(
 *         document, document_length, rule, rule_length,
 *         scratch, YURZHOAD_MAX_WORDS, marks, YURZHOAD_MAX_NODES);
 *     if (e.number != YURZHOAD_ACCEPTED)
 *         printf("%s, at %zu\n", yurzhoad_words(e.number), e.place);
 *
 * WHAT HOLDS FOR ALL CALLS
 *
 * Any bytes, and buffers of any length, are accepted or refused. Nothing need
 * be checked before a call, and no call fails in another way.
 *
 * Nothing is allocated. There is no state and no global: calls may run at the
 * same time as long as no buffer that one of them writes is used by another.
 * No pointer is kept after a call.
 *
 * Bytes are taken as they are. A document or a rule needs no byte 0 at its
 * end; if one is there, it is not counted in the length.
 *
 * Values and constants are compared without the blanks, bytes 0x20, at both
 * their ends; document and rule are only read, and none of it is changed.
 *
 * In a rule = and != compare values as text, byte by byte. The order signs
 * < <= > >= compare amounts. A numeral is an optional minus, 1 to 9 digits, and
 * optionally a point with 1 to 4 digits; leading zeros are allowed. An order
 * sign holds between two values exactly if both are numerals and their exact
 * amounts are so ordered: 9 is less than 10, and <= and >= hold between 1.5 and
 * 1.50, and between -0 and 0, though = does not. Where a value or a constant is
 * no numeral, all four fail, <= between two equal texts too.
 *
 * A count, #nP with n from 0 to YURZHOAD_MAX_COUNT in base ten without leading
 * zeros, holds at a node from which the path P reaches at least n different
 * nodes; one that is reached in two ways counts once. #0P holds everywhere.
 *
 * WHAT A CALL ASKS OF ITS BUFFERS
 *
 * A buffer is a pointer and a length. The length counts bytes, and words of
 * 16 bits for the scratch and for a list of values. A call reads and writes
 * inside the buffers only. The caller sees to it that each buffer has the
 * length that it is said to have. Beyond that:
 *
 * - Empty buffers. A null pointer is allowed if the length is 0.
 * - Short buffers. If the scratch or the marks are too short for the
 *   document, the evaluation refuses the call: YURZHOAD_SCRATCH_LENGTH,
 *   YURZHOAD_MARKS_LENGTH.
 * - Buffers that overlap, null pointers with a length, and what else no call
 *   may be handed, are refused before the call: YURZHOAD_MISUSE.
 *
 * The last is done by this file, not by the archive. Each function has a macro
 * of its own name, which leads to a checking function. The name in brackets,
 * as in (yurzhoad_evaluate_plain)(...), and the name without brackets behind
 * it, as for a pointer to the function, mean the bare function of the archive.
 * It checks none of this, and misuse of it is undefined. For a pointer to the
 * checking function, take its own name, which has _guarded at the end.
 *
 * Compilers refuse some misuse by themselves, where they can see it. Types
 * are told by all of them. GCC, from version 10, also warns of one pointer
 * given twice (-Wrestrict), of an array that is shorter than its length
 * (-Wstringop-overflow, -Wstringop-overread), of a null pointer with a length
 * (-Wnonnull) and of a document that nothing was written to (-Wuninitialized).
 *
 * COSTS
 *
 * N is the number of nodes, B the number of its binary digits, S the bytes of
 * the document, R the bytes of the rule. Costs are read off the code and not
 * proved. docs/COSTS.md has them part by part, with the inputs that are slow.
 *
 * A call takes less than 64 KB of the stack: the document check, and so each
 * evaluation, has about 50 KB of its own for labels. This was measured, with
 * documents and rules at their limits, and is not proved.
 */
#ifndef YURZHOAD_H
#define YURZHOAD_H

#include <stddef.h>
#include <stdint.h>

/* No other pointer leads to what this one leads to, if it is written. */
#if !defined(__cplusplus)
#define YURZHOAD_RESTRICT restrict
#elif defined(__GNUC__) || defined(_MSC_VER)
#define YURZHOAD_RESTRICT __restrict
#else
#define YURZHOAD_RESTRICT
#endif

/*
 * For compilers that check it: the parameter of this number is a buffer, and
 * the next one is its length. READS: the function reads what the caller wrote.
 * WRITES: it may write, and what was there before does not matter to it.
 */
#if defined(__has_attribute)
#if __has_attribute(access)
#define YURZHOAD_READS(buffer, length) __attribute__((access(read_only, buffer, length)))
#define YURZHOAD_WRITES(buffer, length) __attribute__((access(write_only, buffer, length)))
#endif
#endif
#if !defined(YURZHOAD_READS)
#define YURZHOAD_READS(buffer, length)
#define YURZHOAD_WRITES(buffer, length)
#endif
#define YURZHOAD_EVALUATES \
    YURZHOAD_READS(1, 2) YURZHOAD_READS(3, 4) YURZHOAD_WRITES(5, 6) YURZHOAD_WRITES(7, 8)
#define YURZHOAD_EVALUATES_VALUES \
    YURZHOAD_READS(1, 2) YURZHOAD_READS(3, 4) YURZHOAD_READS(5, 6) \
    YURZHOAD_WRITES(7, 8) YURZHOAD_WRITES(9, 10)

#ifdef __cplusplus
extern "C" {
#endif

/* ------------------------------------------------------------------------
 * Limits. What is above them is refused.
 */

/* The bytes of a document. */
#define YURZHOAD_MAX_DOCUMENT_BYTES 1048576

/* The nodes of a document, which has at least 1. */
#define YURZHOAD_MAX_NODES 4096

/* The bytes of a label, and of a name in a rule. Each has at least 1. */
#define YURZHOAD_MAX_LABEL 16

/* The bytes of a value. */
#define YURZHOAD_MAX_VALUE 255

/* The bytes of a rule. */
#define YURZHOAD_MAX_RULE_BYTES 1024

/* The tests of a rule: itself and all tests inside it. */
#define YURZHOAD_MAX_TESTS 64

/* The nesting of a part of a rule. The whole rule has nesting 1. */
#define YURZHOAD_MAX_NESTING 32

/* The steps of a comparison, those of both paths together, and of a count. */
#define YURZHOAD_MAX_STEPS 14

/* The bytes of a constant in a rule. */
#define YURZHOAD_MAX_CONSTANT 32

/*
 * The number that a count in a rule may ask for. A rule with a greater one does
 * not read: YURZHOAD_UNREADABLE.
 */
#define YURZHOAD_MAX_COUNT 4096

/*
 * The digits of a numeral, before its point and behind it. What has more is not
 * refused: it is no numeral, and no order sign holds with it.
 */
#define YURZHOAD_MAX_NUMERAL_DIGITS 9
#define YURZHOAD_MAX_NUMERAL_DECIMALS 4

/* ------------------------------------------------------------------------
 * Numbers. Each call hands back one of them, in the field number, with a place
 * beside it. Where several grounds apply, the one that comes first is handed
 * back: 1; then of 2, 3, 4 and 14 the one on the first line, and on one line
 * the lower number; 5; of 6 and 7 the one at the lower offset; 8; 9; 23; 10; 11;
 * 13. docs/FORMAT.md, section 4, has each with examples.
 *
 * The numbers 12, 15 to 22, 24 and 25 are kept for calls to come. No call hands
 * them back yet.
 *
 * Lines count from 1, offsets from 0. Node v has the lines 4v + 2 to 4v + 5.
 */

/* The call is accepted. Place: 0. */
#define YURZHOAD_ACCEPTED 0

/* The document has more than YURZHOAD_MAX_DOCUMENT_BYTES bytes. Place: 0. */
#define YURZHOAD_DOCUMENT_LENGTH 1

/*
 * A line of the document is not of the form that is due there, is missing, is
 * extra, or has no line feed. Place: the line.
 */
#define YURZHOAD_LINE_FORM 2

/* The number of nodes is 0 or above YURZHOAD_MAX_NODES. Place: 1, the line. */
#define YURZHOAD_NODE_COUNT 3

/* A line of the document breaks a rule of the tree. Place: the line. */
#define YURZHOAD_TREE_RULE 4

/* The rule has more than YURZHOAD_MAX_RULE_BYTES bytes. Place: 0. */
#define YURZHOAD_RULE_LENGTH 5

/*
 * The rule does not read. Place: the offset of the first byte with which no
 * rule goes on, or the length of the rule if it ends too early.
 */
#define YURZHOAD_UNREADABLE 6

/*
 * A part of the rule has a nesting above YURZHOAD_MAX_NESTING. Place: the
 * offset of the first byte of the first such part.
 */
#define YURZHOAD_NESTING 7

/*
 * The rule has more than YURZHOAD_MAX_TESTS tests. Place: the offset of the
 * first byte of the first test above them.
 */
#define YURZHOAD_TESTS 8

/*
 * A comparison or a count has more than YURZHOAD_MAX_STEPS steps. Place: the
 * offset of the first byte of the first such test, which is the opening bracket
 * of a comparison and the # of a count.
 */
#define YURZHOAD_STEPS 9

/* The scratch has fewer words than the document needs. Place: 0. */
#define YURZHOAD_SCRATCH_LENGTH 10

/* There are fewer marks than nodes. Place: 0. */
#define YURZHOAD_MARKS_LENGTH 11

/* A node of a list is none of the document: it is not below N. Place: 0. */
#define YURZHOAD_NO_SUCH_NODE 13

/*
 * An attribute has the label of another one before it, of the same element.
 * So no element of an accepted document has two attributes of one label.
 * Place: the line of the second one's label.
 */
#define YURZHOAD_DUPLICATE_ATTRIBUTE 14

/*
 * The rule is not the comparison that the call is for, which is one equality
 * between two paths. Place: 0.
 */
#define YURZHOAD_OTHER_COMPARISON 23

/*
 * The buffers are not such as a call may be handed. The archive never hands
 * this back: it was not called, and nothing was read or written. Place: the
 * number of the buffer, which is 1 for the document, 2 for the rule, 3 for the
 * scratch, 4 for the marks and 5 for a list of values. It is the lowest number
 * of a buffer for which this holds:
 *
 * - its pointer is null, and its length is not 0;
 * - with its length it would go beyond the last address;
 * - it is the scratch or the list, and its address is odd;
 * - it is the scratch or the marks, and shares a byte with one of a lower
 *   number;
 * - it is the list, and shares a byte with the scratch or the marks.
 *
 * The document, the rule and the list are only read, and may overlap each other.
 */
#define YURZHOAD_MISUSE 0xFFFF

/*
 * A few words for a number, in English, without a line feed. For what is none
 * of the numbers above: "unknown number". The string lasts as long as the
 * program.
 */
static inline const char *yurzhoad_words(uint16_t number)
{
    switch (number) {
    case YURZHOAD_ACCEPTED: return "accepted";
    case YURZHOAD_DOCUMENT_LENGTH: return "document too long";
    case YURZHOAD_LINE_FORM: return "line not of the form due there";
    case YURZHOAD_NODE_COUNT: return "number of nodes out of range";
    case YURZHOAD_TREE_RULE: return "rule of the tree broken";
    case YURZHOAD_RULE_LENGTH: return "rule too long";
    case YURZHOAD_UNREADABLE: return "rule does not read";
    case YURZHOAD_NESTING: return "rule nested too deep";
    case YURZHOAD_TESTS: return "too many tests in the rule";
    case YURZHOAD_STEPS: return "too many steps in a comparison or a count";
    case YURZHOAD_SCRATCH_LENGTH: return "scratch too short";
    case YURZHOAD_MARKS_LENGTH: return "too few marks";
    case YURZHOAD_NO_SUCH_NODE: return "no such node";
    case YURZHOAD_DUPLICATE_ATTRIBUTE: return "duplicate attribute";
    case YURZHOAD_OTHER_COMPARISON: return "rule not one equality between two paths";
    case YURZHOAD_MISUSE: return "buffer null, overlapping or out of place";
    default: return "unknown number";
    }
}

/* ------------------------------------------------------------------------
 * The words of scratch. N nodes need N * (64 * B + 128) words of 16 bits, B
 * being the number of binary digits of N.
 */

#define YURZHOAD_WORDS_PER_DIGIT 64
#define YURZHOAD_WORDS_PER_NODE 128

/* The binary digits of YURZHOAD_MAX_NODES. */
#define YURZHOAD_MAX_NODE_DIGITS 13

/*
 * The words that are enough for every document, as a constant: for static
 * buffers. They are 7,864,320 bytes.
 */
#define YURZHOAD_MAX_WORDS \
    (YURZHOAD_MAX_NODES \
        * (YURZHOAD_WORDS_PER_DIGIT * YURZHOAD_MAX_NODE_DIGITS + YURZHOAD_WORDS_PER_NODE))

/*
 * The words that a document of so many nodes needs. For 0 nodes it is 0. For
 * more than YURZHOAD_MAX_NODES it is YURZHOAD_MAX_WORDS: no document has more.
 * It never goes down as nodes go up.
 */
static inline size_t yurzhoad_needed_words(size_t nodes)
{
    size_t digits = 0;
    size_t rest;
    if (nodes > YURZHOAD_MAX_NODES) {
        return YURZHOAD_MAX_WORDS;
    }
    for (rest = nodes; rest > 0; rest /= 2) {
        digits++;
    }
    return nodes * (YURZHOAD_WORDS_PER_DIGIT * digits + YURZHOAD_WORDS_PER_NODE);
}

/* ------------------------------------------------------------------------
 * Records. A function hands its record back by value.
 */

/* What the document check hands back. */
typedef struct yurzhoad_document_answer {
    uint16_t number; /* YURZHOAD_ACCEPTED, or 1 to 4 or 14, or YURZHOAD_MISUSE */
    size_t place;    /* 0 if accepted; else see the number */
    size_t nodes;    /* N if accepted, else 0 */
} yurzhoad_document_answer;

/* What the rule check hands back. */
typedef struct yurzhoad_rule_answer {
    uint16_t number; /* YURZHOAD_ACCEPTED, or 5 to 9, or YURZHOAD_MISUSE */
    size_t place;    /* 0 if accepted; else see the number */
} yurzhoad_rule_answer;

/* What an evaluation hands back. */
typedef struct yurzhoad_evaluation {
    uint16_t number; /* YURZHOAD_ACCEPTED, or 1 to 11, 13, 14 or 23, or YURZHOAD_MISUSE */
    size_t place;    /* 0 if accepted; else see the number */
    size_t selected; /* the nodes that are marked if accepted, else 0 */
    size_t snippets; /* their count if accepted by snippets, else 0 */
} yurzhoad_evaluation;

/* ------------------------------------------------------------------------
 * Functions.
 */

/*
 * Judges a document, by the numbers 1 to 4 and 14, and tells its number of
 * nodes.
 *
 * document: read, document_length bytes. It may be empty, and is refused then.
 *
 * Cost: one pass over the bytes, up to the first bad line. The label of each
 * attribute is compared with others of its element besides, with at most 144
 * of them. A document that is too long is not read.
 */
YURZHOAD_READS(1, 2)
yurzhoad_document_answer yurzhoad_check_document(const uint8_t *document, size_t document_length);

/*
 * Judges a rule, by the numbers 5 to 9.
 *
 * rule: read, rule_length bytes. It may be empty, and is refused then.
 *
 * Cost: R, whatever the nesting. A rule that is too long is not read.
 */
YURZHOAD_READS(1, 2)
yurzhoad_rule_answer yurzhoad_check_rule(const uint8_t *rule, size_t rule_length);

/*
 * Marks the nodes of a document that a rule selects, by following its paths
 * from every node. Judges by the numbers 1 to 11 and 14: the document, then the
 * rule, then the scratch, then the marks. So no check need be called before.
 *
 * document, rule: read. They may overlap each other, and nothing else.
 *
 * scratch: written, at an even address. It needs yurzhoad_needed_words(N)
 * words; more are allowed. What it holds before does not matter. Accepted: the
 * words that are needed are 0 afterwards, and later ones are unchanged.
 *
 * marks: written. It needs N bytes; more are allowed. What it holds before
 * does not matter. Accepted: mark v is 1 if node v is selected, else 0, for
 * the N nodes in the order of their lines, and later bytes are unchanged.
 *
 * Refused: scratch and marks hold what they held before.
 *
 * The count of snippets is 0.
 *
 * Cost: if refused, that of the checks. If accepted, in bytes looked at and
 * words read or written, up to a small factor:
 *
 * - the values put in order: S, N * B comparisons of values, N * N / 2 words;
 *   at worst S * N * B bytes, for values that agree over long stretches;
 * - each test of a name: S; each !, & and |: N + R;
 * - each comparison: up to N * N * 16;
 * - each count of two nodes or more: up to N * N * 16, less where they are soon
 *   found; each count of one node: N * 256; each other count: N;
 * - the scratch set to 0: N * (64 * B + 128) words.
 */
YURZHOAD_EVALUATES
yurzhoad_evaluation yurzhoad_evaluate_plain(
    const uint8_t *document, size_t document_length,
    const uint8_t *rule, size_t rule_length,
    uint16_t *YURZHOAD_RESTRICT scratch, size_t scratch_words,
    uint8_t *YURZHOAD_RESTRICT marks, size_t marks_length);

/*
 * The same by snippets, for all nodes at once, and counts the snippets. What
 * it does with its buffers, what it refuses and what it marks are the same.
 *
 * The count is that of docs/FORMAT.md, section 7. It is at most 128 * N * B
 * for each equality of two paths in the rule.
 *
 * Cost: as above, that of counts too, but for the comparisons:
 *
 * - each equality of two paths: N * B * 256, and at most 4 * N for each value
 *   that two nodes or more have;
 * - each other comparison: N * 256.
 *
 * On large documents it is the faster one for rules that compare.
 */
YURZHOAD_EVALUATES
yurzhoad_evaluation yurzhoad_evaluate_snippets(
    const uint8_t *document, size_t document_length,
    const uint8_t *rule, size_t rule_length,
    uint16_t *YURZHOAD_RESTRICT scratch, size_t scratch_words,
    uint8_t *YURZHOAD_RESTRICT marks, size_t marks_length);

/*
 * Evaluates a rule that is one equality between two paths by some of the values
 * of the document. A value is given by a node that has it; the same value may be
 * given several times, by one node or by several, and in any order.
 *
 * values: read, values_length node numbers, at an even address. It may overlap
 * the document and the rule. It may be empty.
 *
 * The count is that of the distinct snippets which these values yield for the
 * equality, and of all snippets of the equalities in its brackets: docs/FORMAT.md,
 * section 7. A node is marked if these values settle the equality there; what is
 * settled by one node for both paths needs no value. If the list has every value
 * of the document, the record and all buffers are those of
 * yurzhoad_evaluate_snippets.
 *
 * Judges by the numbers of the other evaluations and by 23 and 13: the document,
 * the rule, 23 if it is no such equality, the scratch, the marks, and 13 if a node
 * of the list is not below N. What it does with its buffers is the same.
 *
 * Cost: as above, but for the rule itself N * B * 256, and at most 4 * N for each
 * number in the list whose value two nodes or more have, a repeated one each time.
 */
YURZHOAD_EVALUATES_VALUES
yurzhoad_evaluation yurzhoad_evaluate_values(
    const uint8_t *document, size_t document_length,
    const uint8_t *rule, size_t rule_length,
    const uint16_t *values, size_t values_length,
    uint16_t *YURZHOAD_RESTRICT scratch, size_t scratch_words,
    uint8_t *YURZHOAD_RESTRICT marks, size_t marks_length);

/* ------------------------------------------------------------------------
 * The checks before a call. The macros at the end lead here. What has no
 * _guarded in its name is for this file alone.
 */

/* An address as a number. */
static inline uintptr_t yurzhoad_address(const void *pointer)
{
#ifdef __cplusplus
    return reinterpret_cast<uintptr_t>(pointer);
#else
    return (uintptr_t)pointer;
#endif
}

/* 1 if there can be no so many bytes at this address, else 0. */
static inline int yurzhoad_astray(const void *start, size_t bytes)
{
    return bytes > 0 && (start == NULL || bytes - 1 > UINTPTR_MAX - yurzhoad_address(start));
}

/* 1 if the two have a byte in common, else 0. An empty one has no byte. */
static inline int yurzhoad_overlap(const void *a, size_t a_bytes, const void *b, size_t b_bytes)
{
    uintptr_t x = yurzhoad_address(a);
    uintptr_t y = yurzhoad_address(b);
    return a_bytes > 0 && b_bytes > 0 && (x <= y ? y - x < a_bytes : x - y < b_bytes);
}

/* The number of the first buffer that is misused, or 0. Looks at no buffer's inside. */
static inline size_t yurzhoad_misused(
    const void *document, size_t document_length,
    const void *rule, size_t rule_length,
    const void *scratch, size_t scratch_words,
    const void *marks, size_t marks_length)
{
    size_t bytes = scratch_words * sizeof(uint16_t);
    if (yurzhoad_astray(document, document_length)) {
        return 1;
    }
    if (yurzhoad_astray(rule, rule_length)) {
        return 2;
    }
    if (scratch_words > SIZE_MAX / sizeof(uint16_t)
        || yurzhoad_astray(scratch, bytes)
        || yurzhoad_address(scratch) % sizeof(uint16_t) != 0
        || yurzhoad_overlap(scratch, bytes, document, document_length)
        || yurzhoad_overlap(scratch, bytes, rule, rule_length)) {
        return 3;
    }
    if (yurzhoad_astray(marks, marks_length)
        || yurzhoad_overlap(marks, marks_length, document, document_length)
        || yurzhoad_overlap(marks, marks_length, rule, rule_length)
        || yurzhoad_overlap(marks, marks_length, scratch, bytes)) {
        return 4;
    }
    return 0;
}

/* The same with a list of values, which is looked at last. */
static inline size_t yurzhoad_misused_values(
    const void *document, size_t document_length,
    const void *rule, size_t rule_length,
    const void *values, size_t values_length,
    const void *scratch, size_t scratch_words,
    const void *marks, size_t marks_length)
{
    size_t bytes = values_length * sizeof(uint16_t);
    size_t misused = yurzhoad_misused(
        document, document_length, rule, rule_length,
        scratch, scratch_words, marks, marks_length);
    if (misused != 0) {
        return misused;
    }
    if (values_length > SIZE_MAX / sizeof(uint16_t)
        || yurzhoad_astray(values, bytes)
        || yurzhoad_address(values) % sizeof(uint16_t) != 0
        || yurzhoad_overlap(values, bytes, scratch, scratch_words * sizeof(uint16_t))
        || yurzhoad_overlap(values, bytes, marks, marks_length)) {
        return 5;
    }
    return 0;
}

/* An evaluation, plain or by snippets. */
typedef yurzhoad_evaluation yurzhoad_evaluator(
    const uint8_t *, size_t, const uint8_t *, size_t, uint16_t *, size_t, uint8_t *, size_t);

/* Checks the buffers and lends them to an evaluation. It never gets a null pointer. */
static inline yurzhoad_evaluation yurzhoad_lend(
    yurzhoad_evaluator *evaluate,
    const uint8_t *document, size_t document_length,
    const uint8_t *rule, size_t rule_length,
    uint16_t *scratch, size_t scratch_words,
    uint8_t *marks, size_t marks_length)
{
    uint8_t no_byte = 0;
    uint8_t no_mark = 0;
    uint16_t no_word = 0;
    yurzhoad_evaluation misuse = {YURZHOAD_MISUSE, 0, 0, 0};
    misuse.place = yurzhoad_misused(
        document, document_length, rule, rule_length,
        scratch, scratch_words, marks, marks_length);
    if (misuse.place != 0) {
        return misuse;
    }
    return evaluate(
        document != NULL ? document : &no_byte, document_length,
        rule != NULL ? rule : &no_byte, rule_length,
        scratch != NULL ? scratch : &no_word, scratch_words,
        marks != NULL ? marks : &no_mark, marks_length);
}

YURZHOAD_READS(1, 2)
static inline yurzhoad_document_answer yurzhoad_check_document_guarded(
    const uint8_t *document, size_t document_length)
{
    uint8_t no_byte = 0;
    yurzhoad_document_answer misuse = {YURZHOAD_MISUSE, 1, 0};
    if (yurzhoad_astray(document, document_length)) {
        return misuse;
    }
    return yurzhoad_check_document(document != NULL ? document : &no_byte, document_length);
}

YURZHOAD_READS(1, 2)
static inline yurzhoad_rule_answer yurzhoad_check_rule_guarded(
    const uint8_t *rule, size_t rule_length)
{
    uint8_t no_byte = 0;
    yurzhoad_rule_answer misuse = {YURZHOAD_MISUSE, 2};
    if (yurzhoad_astray(rule, rule_length)) {
        return misuse;
    }
    return yurzhoad_check_rule(rule != NULL ? rule : &no_byte, rule_length);
}

YURZHOAD_EVALUATES
static inline yurzhoad_evaluation yurzhoad_evaluate_plain_guarded(
    const uint8_t *document, size_t document_length,
    const uint8_t *rule, size_t rule_length,
    uint16_t *YURZHOAD_RESTRICT scratch, size_t scratch_words,
    uint8_t *YURZHOAD_RESTRICT marks, size_t marks_length)
{
    return yurzhoad_lend(
        yurzhoad_evaluate_plain, document, document_length, rule, rule_length,
        scratch, scratch_words, marks, marks_length);
}

YURZHOAD_EVALUATES
static inline yurzhoad_evaluation yurzhoad_evaluate_snippets_guarded(
    const uint8_t *document, size_t document_length,
    const uint8_t *rule, size_t rule_length,
    uint16_t *YURZHOAD_RESTRICT scratch, size_t scratch_words,
    uint8_t *YURZHOAD_RESTRICT marks, size_t marks_length)
{
    return yurzhoad_lend(
        yurzhoad_evaluate_snippets, document, document_length, rule, rule_length,
        scratch, scratch_words, marks, marks_length);
}

YURZHOAD_EVALUATES_VALUES
static inline yurzhoad_evaluation yurzhoad_evaluate_values_guarded(
    const uint8_t *document, size_t document_length,
    const uint8_t *rule, size_t rule_length,
    const uint16_t *values, size_t values_length,
    uint16_t *YURZHOAD_RESTRICT scratch, size_t scratch_words,
    uint8_t *YURZHOAD_RESTRICT marks, size_t marks_length)
{
    uint8_t no_byte = 0;
    uint8_t no_mark = 0;
    uint16_t no_word = 0;
    uint16_t no_value = 0;
    yurzhoad_evaluation misuse = {YURZHOAD_MISUSE, 0, 0, 0};
    misuse.place = yurzhoad_misused_values(
        document, document_length, rule, rule_length, values, values_length,
        scratch, scratch_words, marks, marks_length);
    if (misuse.place != 0) {
        return misuse;
    }
    return yurzhoad_evaluate_values(
        document != NULL ? document : &no_byte, document_length,
        rule != NULL ? rule : &no_byte, rule_length,
        values != NULL ? values : &no_value, values_length,
        scratch != NULL ? scratch : &no_word, scratch_words,
        marks != NULL ? marks : &no_mark, marks_length);
}

/* From here on, a call by a function's name is checked. */
#define yurzhoad_check_document(...) yurzhoad_check_document_guarded(__VA_ARGS__)
#define yurzhoad_check_rule(...) yurzhoad_check_rule_guarded(__VA_ARGS__)
#define yurzhoad_evaluate_plain(...) yurzhoad_evaluate_plain_guarded(__VA_ARGS__)
#define yurzhoad_evaluate_snippets(...) yurzhoad_evaluate_snippets_guarded(__VA_ARGS__)
#define yurzhoad_evaluate_values(...) yurzhoad_evaluate_values_guarded(__VA_ARGS__)

#ifdef __cplusplus
}
#endif

#endif
