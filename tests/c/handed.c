/*
 * What the checks of include/yurzhoad.h hand on to the archive. This program has functions of its own
 * in the archive's place, and is not linked with it: they note what they get. Prints each check that
 * failed with its line, and at the end how many were made.
 */
#include "yurzhoad.h"
#include <stdio.h>

static unsigned long checks = 0;
static unsigned long failures = 0;

static void check(int holds, int line, const char *what)
{
    checks++;
    if (!holds) {
        failures++;
        printf("handed.c:%d: %s\n", line, what);
    }
}

#define CHECK(holds) check((holds) ? 1 : 0, __LINE__, #holds)

/* ---- what a function got ---- */

/* The buffers by the numbers that misuse has for them. */
enum { DOCUMENT = 1, RULE, SCRATCH, MARKS, LENT, VALUES = LENT, BUFFERS };

static const void *pointers[BUFFERS];
static size_t lengths[BUFFERS];
static unsigned called;

static void note(int buffer, const void *pointer, size_t length)
{
    pointers[buffer] = pointer;
    lengths[buffer] = length;
}

/* ---- in the archive's place: brackets, since each name is a macro ---- */

yurzhoad_document_answer (yurzhoad_check_document)(const uint8_t *document, size_t document_length)
{
    yurzhoad_document_answer answer = {4, 23, 42};
    called++;
    note(DOCUMENT, document, document_length);
    return answer;
}

yurzhoad_rule_answer (yurzhoad_check_rule)(const uint8_t *rule, size_t rule_length)
{
    yurzhoad_rule_answer answer = {9, 17};
    called++;
    note(RULE, rule, rule_length);
    return answer;
}

static yurzhoad_evaluation note_all(
    const uint8_t *document, size_t document_length, const uint8_t *rule, size_t rule_length,
    uint16_t *scratch, size_t scratch_words, uint8_t *marks, size_t marks_length)
{
    yurzhoad_evaluation answer = {11, 12, 13, 14};
    called++;
    note(DOCUMENT, document, document_length);
    note(RULE, rule, rule_length);
    note(SCRATCH, scratch, scratch_words);
    note(MARKS, marks, marks_length);
    return answer;
}

yurzhoad_evaluation (yurzhoad_evaluate_plain)(
    const uint8_t *document, size_t document_length, const uint8_t *rule, size_t rule_length,
    uint16_t *YURZHOAD_RESTRICT scratch, size_t scratch_words,
    uint8_t *YURZHOAD_RESTRICT marks, size_t marks_length)
{
    return note_all(
        document, document_length, rule, rule_length, scratch, scratch_words, marks, marks_length);
}

yurzhoad_evaluation (yurzhoad_evaluate_snippets)(
    const uint8_t *document, size_t document_length, const uint8_t *rule, size_t rule_length,
    uint16_t *YURZHOAD_RESTRICT scratch, size_t scratch_words,
    uint8_t *YURZHOAD_RESTRICT marks, size_t marks_length)
{
    yurzhoad_evaluation answer = note_all(
        document, document_length, rule, rule_length, scratch, scratch_words, marks, marks_length);
    answer.snippets = 15;
    return answer;
}

yurzhoad_evaluation (yurzhoad_evaluate_values)(
    const uint8_t *document, size_t document_length, const uint8_t *rule, size_t rule_length,
    const uint16_t *values, size_t values_length,
    uint16_t *YURZHOAD_RESTRICT scratch, size_t scratch_words,
    uint8_t *YURZHOAD_RESTRICT marks, size_t marks_length)
{
    yurzhoad_evaluation answer = note_all(
        document, document_length, rule, rule_length, scratch, scratch_words, marks, marks_length);
    note(VALUES, values, values_length);
    answer.snippets = 16;
    return answer;
}

/* ---- calls ---- */

static uint8_t document[7];
static uint8_t rule[5];
static uint16_t scratch[3];
static uint8_t marks[2];
static const uint16_t values[6] = {0};

/* The evaluations, and the count of snippets that each hands back. */
enum { PLAIN = 14, SNIPPETS, BY_VALUES };

/* A call with one buffer null: of length 0, or of its own length if it is to be misused. */
static yurzhoad_evaluation evaluate(int evaluation, int null, int misused)
{
    volatile int without = null;
    const uint8_t *d = without == DOCUMENT ? NULL : document;
    const uint8_t *r = without == RULE ? NULL : rule;
    uint16_t *s = without == SCRATCH ? NULL : scratch;
    uint8_t *m = without == MARKS ? NULL : marks;
    size_t d_length = d != NULL || misused ? 7 : 0;
    size_t r_length = r != NULL || misused ? 5 : 0;
    size_t s_words = s != NULL || misused ? 3 : 0;
    size_t m_length = m != NULL || misused ? 2 : 0;
    const uint16_t *v = without == VALUES ? NULL : values;
    size_t v_length = v != NULL || misused ? 6 : 0;
    called = 0;
    if (evaluation == BY_VALUES) {
        return yurzhoad_evaluate_values(
            d, d_length, r, r_length, v, v_length, s, s_words, m, m_length);
    }
    return evaluation == SNIPPETS
        ? yurzhoad_evaluate_snippets(d, d_length, r, r_length, s, s_words, m, m_length)
        : yurzhoad_evaluate_plain(d, d_length, r, r_length, s, s_words, m, m_length);
}

/* Each buffer is handed on as it is, but for a null pointer. The record comes back as it is. */
static void test_evaluation(int evaluation, int null)
{
    yurzhoad_evaluation e = evaluate(evaluation, null, 0);
    CHECK(called == 1);
    CHECK(e.number == 11 && e.place == 12 && e.selected == 13);
    CHECK(e.snippets == (size_t)evaluation);
    CHECK(null == DOCUMENT ? pointers[DOCUMENT] != NULL : pointers[DOCUMENT] == document);
    CHECK(null == RULE ? pointers[RULE] != NULL : pointers[RULE] == rule);
    CHECK(null == SCRATCH ? pointers[SCRATCH] != NULL : pointers[SCRATCH] == scratch);
    CHECK(null == MARKS ? pointers[MARKS] != NULL : pointers[MARKS] == marks);
    CHECK(lengths[DOCUMENT] == (null == DOCUMENT ? 0 : 7));
    CHECK(lengths[RULE] == (null == RULE ? 0 : 5));
    CHECK(lengths[SCRATCH] == (null == SCRATCH ? 0 : 3));
    CHECK(lengths[MARKS] == (null == MARKS ? 0 : 2));
    if (evaluation == BY_VALUES) {
        CHECK(null == VALUES ? pointers[VALUES] != NULL : pointers[VALUES] == values);
        CHECK(lengths[VALUES] == (null == VALUES ? 0 : 6));
    }
}

/* What is misused is not handed on at all. */
static void test_misuse(int evaluation, int null)
{
    yurzhoad_evaluation e = evaluate(evaluation, null, 1);
    CHECK(called == 0);
    CHECK(e.number == YURZHOAD_MISUSE && e.place == (size_t)null);
    CHECK(e.selected == 0 && e.snippets == 0);
}

static void test_checks(void)
{
    volatile size_t length = 0;
    yurzhoad_document_answer d = yurzhoad_check_document(NULL, length);
    yurzhoad_rule_answer r = yurzhoad_check_rule(NULL, length);
    CHECK(d.number == 4 && d.place == 23 && d.nodes == 42);
    CHECK(r.number == 9 && r.place == 17);
    CHECK(pointers[DOCUMENT] != NULL && lengths[DOCUMENT] == 0);
    CHECK(pointers[RULE] != NULL && lengths[RULE] == 0);
    d = yurzhoad_check_document(document, 7);
    r = yurzhoad_check_rule(rule, 5);
    CHECK(pointers[DOCUMENT] == document && lengths[DOCUMENT] == 7);
    CHECK(pointers[RULE] == rule && lengths[RULE] == 5);
    called = 0;
    length = 1;
    d = yurzhoad_check_document(NULL, length);
    r = yurzhoad_check_rule(NULL, length);
    CHECK(called == 0);
    CHECK(d.number == YURZHOAD_MISUSE && r.number == YURZHOAD_MISUSE);
}

int main(void)
{
    int evaluation;
    int null;
    for (evaluation = PLAIN; evaluation <= BY_VALUES; evaluation++) {
        int buffers = evaluation == BY_VALUES ? BUFFERS : LENT;
        test_evaluation(evaluation, 0);
        for (null = DOCUMENT; null < buffers; null++) {
            test_evaluation(evaluation, null);
            test_misuse(evaluation, null);
        }
    }
    test_checks();
    printf("c: %lu checks, %lu failed\n", checks, failures);
    return failures > 0 || checks == 0;
}
