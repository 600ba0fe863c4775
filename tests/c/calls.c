/*
 * The archive through include/yurzhoad.h: records, the ten cases M on document X, blanks at the ends of
 * values, the order of amounts, counts of nodes, lists of values, a refusal of each number, lengths of the
 * buffers, misuse, and a document of the most nodes. It compiles as C99 and as C++11. Prints each check that failed with its
 * line, and at the end how many were made.
 */
#include "yurzhoad.h"
#include <stdio.h>
#include <string.h>

/* The header may be included twice. */
#include "yurzhoad.h"

/* In second.c. */
yurzhoad_rule_answer second_check_rule(const uint8_t *rule, size_t length);

/* ---- sizes and offsets, as the archive has them; a wrong one does not compile ---- */

#define MUST(name, holds) typedef char name[(holds) ? 1 : -1]

MUST(document_answer_size, sizeof(yurzhoad_document_answer) == 24);
MUST(document_answer_number, offsetof(yurzhoad_document_answer, number) == 0);
MUST(document_answer_place, offsetof(yurzhoad_document_answer, place) == 8);
MUST(document_answer_nodes, offsetof(yurzhoad_document_answer, nodes) == 16);
MUST(rule_answer_size, sizeof(yurzhoad_rule_answer) == 16);
MUST(rule_answer_number, offsetof(yurzhoad_rule_answer, number) == 0);
MUST(rule_answer_place, offsetof(yurzhoad_rule_answer, place) == 8);
MUST(evaluation_size, sizeof(yurzhoad_evaluation) == 32);
MUST(evaluation_number, offsetof(yurzhoad_evaluation, number) == 0);
MUST(evaluation_place, offsetof(yurzhoad_evaluation, place) == 8);
MUST(evaluation_selected, offsetof(yurzhoad_evaluation, selected) == 16);
MUST(evaluation_snippets, offsetof(yurzhoad_evaluation, snippets) == 24);
MUST(max_words, YURZHOAD_MAX_WORDS == 3932160);

/* ---- checks ---- */

static unsigned long checks = 0;
static unsigned long failures = 0;

/* What is looked at, for the message of a check that fails. */
static const char *subject = "";

static void check(int holds, int line, const char *what)
{
    checks++;
    if (!holds) {
        failures++;
        printf("calls.c:%d: %s: %s\n", line, subject, what);
    }
}

#define CHECK(holds) check((holds) ? 1 : 0, __LINE__, #holds)

static const uint8_t *bytes_of(const char *text)
{
    return (const uint8_t *)text;
}

/* ---- a call as data ---- */

typedef struct call {
    const uint8_t *document;
    size_t document_length;
    const uint8_t *rule;
    size_t rule_length;
    uint16_t *scratch;
    size_t scratch_words;
    uint8_t *marks;
    size_t marks_length;
    const uint16_t *values;
    size_t values_length;
} call;

/* Two evaluations of a whole rule, and one by the values of the call. */
enum { PLAIN, SNIPPETS, EVALUATIONS, VALUES = EVALUATIONS };

/* Calls are handed on through here, so that no compiler sees their misuse beforehand. */
static const call *volatile handed;

static yurzhoad_evaluation evaluate(int evaluation, const call *lent)
{
    const call *c;
    handed = lent;
    c = handed;
    subject = evaluation == PLAIN ? "plain" : evaluation == SNIPPETS ? "snippets" : "values";
    if (evaluation == PLAIN) {
        return yurzhoad_evaluate_plain(
            c->document, c->document_length, c->rule, c->rule_length,
            c->scratch, c->scratch_words, c->marks, c->marks_length);
    }
    if (evaluation == VALUES) {
        return yurzhoad_evaluate_values(
            c->document, c->document_length, c->rule, c->rule_length, c->values, c->values_length,
            c->scratch, c->scratch_words, c->marks, c->marks_length);
    }
    return yurzhoad_evaluate_snippets(
        c->document, c->document_length, c->rule, c->rule_length,
        c->scratch, c->scratch_words, c->marks, c->marks_length);
}

static yurzhoad_document_answer check_document(const call *lent)
{
    handed = lent;
    subject = "document check";
    return yurzhoad_check_document(handed->document, handed->document_length);
}

static yurzhoad_rule_answer check_rule(const call *lent)
{
    handed = lent;
    subject = "rule check";
    return yurzhoad_check_rule(handed->rule, handed->rule_length);
}

static int is_refused(yurzhoad_evaluation e, uint16_t number, size_t place)
{
    return e.number == number && e.place == place && e.selected == 0 && e.snippets == 0;
}

/* ---- buffers ---- */

/* Longer than any call needs, so that what lies behind can be looked at. */
static uint16_t scratch[YURZHOAD_MAX_WORDS + 8];
static uint8_t marks[YURZHOAD_MAX_NODES + 8];

/* What the buffers hold before a call: no word and no mark that an evaluation leaves. */
#define WORD 0xA5A5
#define MARK 0xA5

static void fill(void)
{
    size_t i;
    for (i = 0; i < YURZHOAD_MAX_WORDS + 8; i++) {
        scratch[i] = WORD;
    }
    memset(marks, MARK, sizeof marks);
}

/* 1 if the words from one to before another all are this. */
static int words_are(size_t from, size_t to, uint16_t word)
{
    size_t i;
    for (i = from; i < to; i++) {
        if (scratch[i] != word) {
            return 0;
        }
    }
    return 1;
}

static int marks_are(size_t from, size_t to, uint8_t mark)
{
    size_t i;
    for (i = from; i < to; i++) {
        if (marks[i] != mark) {
            return 0;
        }
    }
    return 1;
}

static int untouched(void)
{
    return words_are(0, YURZHOAD_MAX_WORDS + 8, WORD) && marks_are(0, YURZHOAD_MAX_NODES + 8, MARK);
}

/* ---- document X ---- */

#define X_NODES 5
#define X_WORDS 1600

static const char X[] =
    "nodes=5\n"
    "depth=0\nkind=e\nlabel=lib\nvalue=\n"
    "depth=1\nkind=e\nlabel=drug\nvalue=\n"
    "depth=2\nkind=a\nlabel=name\nvalue=heparin\n"
    "depth=1\nkind=e\nlabel=drug\nvalue=\n"
    "depth=2\nkind=a\nlabel=name\nvalue=heparin\n";

#define X_LENGTH (sizeof X - 1)

/* A call on X with this rule and buffers that are just long enough. */
static call on_x(const char *rule)
{
    call c;
    c.document = bytes_of(X);
    c.document_length = X_LENGTH;
    c.rule = bytes_of(rule);
    c.rule_length = strlen(rule);
    c.scratch = scratch;
    c.scratch_words = X_WORDS;
    c.marks = marks;
    c.marks_length = X_NODES;
    c.values = NULL;
    c.values_length = 0;
    return c;
}

/* ---- the cases M: rule, marks as digits, snippets ---- */

typedef struct selection {
    const char *rule;
    const char *marked;
    size_t snippets;
} selection;

static const selection cases[] = {
    {":drug", "01010", 0},
    {"!:drug", "10101", 0},
    {"(e=e)", "11111", 4},
    {"(e!=e)", "00000", 0},
    {"(l=\"heparin\")", "01010", 0},
    {"(e<\"a\")", "00000", 0},
    {"(*l=\"heparin\")", "11111", 0},
    {"(.R*R=\"\")", "00010", 0},
    {"(r=e)", "01000", SIZE_MAX},
    {"(.l[:name]=..r*rl)", "01000", 19},
};

/* The call has buffers that are just long enough. */
static void select_one(const selection *s, const call *c, int evaluation)
{
    yurzhoad_evaluation e;
    size_t selected = 0;
    size_t v;
    fill();
    e = evaluate(evaluation, c);
    subject = s->rule;
    CHECK(e.number == YURZHOAD_ACCEPTED && e.place == 0);
    for (v = 0; v < c->marks_length; v++) {
        CHECK(marks[v] == s->marked[v] - '0');
        selected += marks[v];
    }
    CHECK(e.selected == selected);
    if (evaluation == PLAIN) {
        CHECK(e.snippets == 0);
    } else if (s->snippets != SIZE_MAX) {
        CHECK(e.snippets == s->snippets);
    }
    CHECK(words_are(0, c->scratch_words, 0));
    CHECK(words_are(c->scratch_words, YURZHOAD_MAX_WORDS + 8, WORD));
    CHECK(marks_are(c->marks_length, YURZHOAD_MAX_NODES + 8, MARK));
}

static void test_cases(void)
{
    size_t i;
    CHECK(sizeof cases / sizeof cases[0] == 10);
    for (i = 0; i < sizeof cases / sizeof cases[0]; i++) {
        call c = on_x(cases[i].rule);
        yurzhoad_document_answer d = check_document(&c);
        yurzhoad_rule_answer r = check_rule(&c);
        subject = cases[i].rule;
        CHECK(d.number == YURZHOAD_ACCEPTED && d.place == 0 && d.nodes == X_NODES);
        CHECK(r.number == YURZHOAD_ACCEPTED && r.place == 0);
        select_one(&cases[i], &c, PLAIN);
        select_one(&cases[i], &c, SNIPPETS);
    }
}

/* ---- blanks at the ends of values ---- */

/* X with its two names padded, each in another way. */
static const char padded_x[] =
    "nodes=5\n"
    "depth=0\nkind=e\nlabel=lib\nvalue=\n"
    "depth=1\nkind=e\nlabel=drug\nvalue=\n"
    "depth=2\nkind=a\nlabel=name\nvalue=  heparin\n"
    "depth=1\nkind=e\nlabel=drug\nvalue=\n"
    "depth=2\nkind=a\nlabel=name\nvalue= heparin   \n";

/* The text of the drug 1 is in two parts, with blanks where they meet and at both ends. */
static const char padded[] =
    "nodes=9\n"
    "depth=0\nkind=e\nlabel=lib\nvalue=\n"
    "depth=1\nkind=e\nlabel=drug\nvalue=\n"
    "depth=2\nkind=a\nlabel=name\nvalue=  heparin \n"
    "depth=2\nkind=t\nlabel=text\nvalue= 5 \n"
    "depth=2\nkind=t\nlabel=text\nvalue= mg \n"
    "depth=1\nkind=e\nlabel=drug\nvalue=\n"
    "depth=2\nkind=a\nlabel=name\nvalue=heparin\n"
    "depth=2\nkind=a\nlabel=note\nvalue=   \n"
    "depth=2\nkind=t\nlabel=text\nvalue=5  mg\n";

#define PADDED_NODES 9

static const selection padded_cases[] = {
    {"(e=\"heparin\")", "001000100", 0},
    {"(e=\"   heparin \")", "001000100", 0},
    {"(e!=\"heparin\")", "110111011", 0},
    /* Blanks inside are kept, those that were joined too. */
    {"(e=\"5  mg\")", "010001001", 0},
    {"(e=\"  5  mg \")", "010001001", 0},
    {"(e=\"5 mg\")", "000000000", 0},
    {"(e=\"5mg\")", "000000000", 0},
    /* Blanks alone are the empty value, and the empty constant. */
    {"(e=\"\")", "000000010", 0},
    {"(e=\"  \")", "000000010", 0},
    /* None of it is a numeral, the first text apart. */
    {"(e<=\" 5.0 \")", "000100000", 0},
    {"(e<=e)", "000100000", 0},
    {"(.l[:name]=..r*rl)", "010000000", SIZE_MAX},
};

/* More bytes than a document has that is lent so. */
#define LENT 1024

/* The document lies where it could be written, and is as before afterwards. */
static void select_lent(const selection *s, const char *document, size_t nodes)
{
    static char lent[LENT];
    size_t length = strlen(document);
    call c = on_x(s->rule);
    int evaluation;
    memcpy(lent, document, length);
    c.document = bytes_of(lent);
    c.document_length = length;
    c.scratch_words = yurzhoad_needed_words(nodes);
    c.marks_length = nodes;
    for (evaluation = PLAIN; evaluation < EVALUATIONS; evaluation++) {
        select_one(s, &c, evaluation);
        CHECK(memcmp(lent, document, length) == 0);
    }
}

MUST(padded_x_fits, sizeof padded_x <= LENT);
MUST(padded_fits, sizeof padded <= LENT);

/* On X the padding of its names changes no mark and no count. */
static void test_padded(void)
{
    size_t i;
    for (i = 0; i < sizeof cases / sizeof cases[0]; i++) {
        select_lent(&cases[i], padded_x, X_NODES);
    }
    for (i = 0; i < sizeof padded_cases / sizeof padded_cases[0]; i++) {
        select_lent(&padded_cases[i], padded, PADDED_NODES);
    }
}

/* ---- the order of amounts ---- */

/* 1 and 4 have 10.50, joined of two texts; 7, 10 and 11 have 10.5; 0 has 10.50 10.5, which is no numeral. */
static const char limits[] =
    "nodes=12\n"
    "depth=0\nkind=e\nlabel=lib\nvalue=\n"
    "depth=1\nkind=e\nlabel=drug\nvalue=\n"
    "depth=2\nkind=a\nlabel=low\nvalue=9\n"
    "depth=2\nkind=a\nlabel=high\nvalue=10\n"
    "depth=2\nkind=e\nlabel=limit\nvalue=\n"
    "depth=3\nkind=t\nlabel=text\nvalue=1\n"
    "depth=3\nkind=t\nlabel=text\nvalue=0.50\n"
    "depth=1\nkind=e\nlabel=drug\nvalue=\n"
    "depth=2\nkind=a\nlabel=low\nvalue=-0\n"
    "depth=2\nkind=a\nlabel=high\nvalue=none\n"
    "depth=2\nkind=e\nlabel=limit\nvalue=\n"
    "depth=3\nkind=t\nlabel=text\nvalue= 10.5 \n";

#define LIMITS_NODES 12

MUST(limits_fits, sizeof limits <= LENT);

static const selection limits_cases[] = {
    {"(e<\"10\")", "001001101000", 0},
    {"(e>\"9\")", "010110010011", 0},
    {"(e>=\"10.50\")", "010010010011", 0},
    {"(e<=\"-0\")", "000000001000", 0},
    /* A value is a numeral if <= holds between it and itself. */
    {"(e<=e)", "011111111011", 0},
    {"!(e<=e)", "100000000100", 0},
    /* Texts are equal or not. */
    {"(e=\"10.5\")", "000000010011", 0},
    {"(e!=\"10.5\")", "111111101100", 0},
    {"(e=\"0\")", "000000000000", 0},
    /* A constant that is no numeral. */
    {"(e<\"none\")", "000000000000", 0},
    {"(e>=\"none\")", "000000000000", 0},
    {"(e<=\"1234567890\")", "000000000000", 0},
    /* Two paths. */
    {"(e<r)", "001100000000", 0},
    {"(e<=r)", "011100000000", 0},
    {"(e>=r)", "010001000000", 0},
    {"(.l*r<\"10\")", "010010010000", 0},
};

static void test_limits(void)
{
    size_t i;
    for (i = 0; i < sizeof limits_cases / sizeof limits_cases[0]; i++) {
        select_lent(&limits_cases[i], limits, LIMITS_NODES);
    }
}

/* ---- counts of nodes, on document X ---- */

static const selection counts[] = {
    {"#0l", "11111", 0},
    {"#1l", "11010", 0},
    {"!#1l", "00101", 0},
    {"#2+lr", "01000", 0},
    /* A node that is reached in two ways counts once. */
    {"#2+ll", "00000", 0},
    {"#2.+lr+LR", "00000", 0},
    /* Nodes directly inside, and all nodes from each. */
    {"#1.l*r", "11010", 0},
    {"#2.l*r", "10000", 0},
    {"#5*+l+r+LR", "11111", 0},
    {"#6*+l+r+LR", "00000", 0},
    {"#4096*+l+r+LR", "00000", 0},
    /* In each other's brackets; the equality inside has its snippets. */
    {"#2..l*r[#1l]", "10000", 0},
    {"([#1l]=\"\")", "11010", 0},
    {"#1[(e=e)]", "11111", 4},
};

static void test_counts(void)
{
    size_t i;
    for (i = 0; i < sizeof counts / sizeof counts[0]; i++) {
        select_lent(&counts[i], X, X_NODES);
    }
}

/* ---- an equality by a list of its values, on document X ---- */

/* The nodes 0, 1 and 3 have the empty value, 2 and 4 have heparin. */
static const uint16_t empty_values[] = {3};
static const uint16_t heparin[] = {2};
static const uint16_t heparin_again[] = {4, 2, 4, 4};
static const uint16_t all_values[] = {4, 1};
static const uint16_t all_nodes[] = {3, 4, 0, 2, 1};

typedef struct list {
    const uint16_t *values;
    size_t length;
    selection due;
} list;

#define LIST(values) values, sizeof values / sizeof values[0]

static const list lists[] = {
    /* Of the 19 snippets of the session heparin yields 15, and it alone settles node 1. */
    {NULL, 0, {"(.l[:name]=..r*rl)", "00000", 0}},
    {LIST(empty_values), {"(.l[:name]=..r*rl)", "00000", 4}},
    {LIST(heparin), {"(.l[:name]=..r*rl)", "01000", 15}},
    {LIST(heparin_again), {"(.l[:name]=..r*rl)", "01000", 15}},
    {LIST(all_values), {"(.l[:name]=..r*rl)", "01000", 19}},
    {LIST(all_nodes), {"(.l[:name]=..r*rl)", "01000", 19}},
    /* One node for both paths needs no value. */
    {NULL, 0, {"(e=e)", "11111", 0}},
    {LIST(heparin), {"(e=e)", "11111", 0}},
    {LIST(all_values), {"(e=e)", "11111", 4}},
    /* The equality in the bracket has all its snippets. */
    {NULL, 0, {"([(e=e)]=e)", "11111", 4}},
    {LIST(heparin), {"([(e=e)]=e)", "11111", 4}},
    {LIST(empty_values), {"([(e=e)]=e)", "11111", 12}},
};

static void test_values(void)
{
    size_t i;
    for (i = 0; i < sizeof lists / sizeof lists[0]; i++) {
        call c = on_x(lists[i].due.rule);
        c.values = lists[i].values;
        c.values_length = lists[i].length;
        select_one(&lists[i].due, &c, VALUES);
    }
}

/* By all values each equality of the cases is evaluated as by snippets. */
static void test_all_values(void)
{
    size_t i;
    for (i = 0; i < sizeof cases / sizeof cases[0]; i++) {
        call c = on_x(cases[i].rule);
        yurzhoad_evaluation by_snippets = evaluate(SNIPPETS, &c);
        yurzhoad_evaluation by_values;
        c.values = all_nodes;
        c.values_length = X_NODES;
        by_values = evaluate(VALUES, &c);
        subject = cases[i].rule;
        if (by_values.number == YURZHOAD_ACCEPTED) {
            CHECK(by_values.selected == by_snippets.selected);
            CHECK(by_values.snippets == by_snippets.snippets);
            select_one(&cases[i], &c, VALUES);
        } else {
            CHECK(is_refused(by_values, YURZHOAD_OTHER_COMPARISON, 0));
        }
        /* (e=e), (r=e) and the session's are equalities between two paths. */
        CHECK((by_values.number == YURZHOAD_ACCEPTED) == (i == 2 || i == 8 || i == 9));
    }
}

/* ---- refusals ---- */

/* The numbers that a call of the archive hands back. 12 and 15 to 22 are not among them yet. */
static const uint16_t numbers[] = {
    YURZHOAD_ACCEPTED,
    YURZHOAD_DOCUMENT_LENGTH,
    YURZHOAD_LINE_FORM,
    YURZHOAD_NODE_COUNT,
    YURZHOAD_TREE_RULE,
    YURZHOAD_RULE_LENGTH,
    YURZHOAD_UNREADABLE,
    YURZHOAD_NESTING,
    YURZHOAD_TESTS,
    YURZHOAD_STEPS,
    YURZHOAD_SCRATCH_LENGTH,
    YURZHOAD_MARKS_LENGTH,
    YURZHOAD_NO_SUCH_NODE,
    YURZHOAD_DUPLICATE_ATTRIBUTE,
    YURZHOAD_OTHER_COMPARISON,
};

#define NUMBERS (sizeof numbers / sizeof numbers[0])

static int refused[YURZHOAD_OTHER_COMPARISON + 1];

/* The checks refuse what is theirs, and accept the rest. */
static void refuse_checks(const call *c, uint16_t number, size_t place)
{
    int of_document = (number >= YURZHOAD_DOCUMENT_LENGTH && number <= YURZHOAD_TREE_RULE)
        || number == YURZHOAD_DUPLICATE_ATTRIBUTE;
    int of_rule = number >= YURZHOAD_RULE_LENGTH && number <= YURZHOAD_STEPS;
    yurzhoad_document_answer d = check_document(c);
    yurzhoad_rule_answer r;
    CHECK(d.number == (of_document ? number : YURZHOAD_ACCEPTED));
    CHECK(d.place == (of_document ? place : 0));
    CHECK(d.nodes == (of_document ? 0 : X_NODES));
    r = check_rule(c);
    CHECK(r.number == (of_rule ? number : YURZHOAD_ACCEPTED));
    CHECK(r.place == (of_rule ? place : 0));
    r = second_check_rule(c->rule, c->rule_length);
    CHECK(r.number == (of_rule ? number : YURZHOAD_ACCEPTED));
}

static void refuse_by(int evaluation, const call *c, uint16_t number, size_t place)
{
    fill();
    CHECK(is_refused(evaluate(evaluation, c), number, place));
    CHECK(untouched());
    refused[number] = 1;
}

static void refuse(const call *c, uint16_t number, size_t place)
{
    int evaluation;
    refuse_checks(c, number, place);
    for (evaluation = PLAIN; evaluation < EVALUATIONS; evaluation++) {
        refuse_by(evaluation, c, number, place);
    }
    /* By values too, where the document or the rule is refused. */
    if (number <= YURZHOAD_STEPS || number == YURZHOAD_DUPLICATE_ATTRIBUTE) {
        refuse_by(VALUES, c, number, place);
    }
}

/* A document for a refusal, in the place of X. */
static void refuse_document(const char *document, size_t length, uint16_t number, size_t place)
{
    call c = on_x(":drug");
    c.document = bytes_of(document);
    c.document_length = length;
    refuse(&c, number, place);
}

static void refuse_rule(const char *rule, uint16_t number, size_t place)
{
    call c = on_x(rule);
    refuse(&c, number, place);
}

/* X with the line of this number changed, to one of the same length. */
static void refuse_changed(size_t line, const char *changed, uint16_t number)
{
    static char document[sizeof X];
    char *at = document;
    size_t i;
    memcpy(document, X, sizeof X);
    for (i = 1; i < line; i++) {
        at = strchr(at, '\n') + 1;
    }
    memcpy(at, changed, strlen(changed));
    refuse_document(document, X_LENGTH, number, line);
}

/* A drug with a name, and with a second attribute or what else is put in its place. */
static void refuse_behind_name(const char *behind, uint16_t number, size_t place)
{
    char document[200];
    strcpy(document, "nodes=3\ndepth=0\nkind=e\nlabel=drug\nvalue=\n");
    strcat(document, "depth=1\nkind=a\nlabel=name\nvalue=heparin\n");
    strcat(document, behind);
    refuse_document(document, strlen(document), number, place);
}

/* In line order: what is wrong before the label comes first, what is wrong behind it does not. */
static void test_duplicates(void)
{
    const uint16_t duplicate = YURZHOAD_DUPLICATE_ATTRIBUTE;
    refuse_behind_name("depth=1\nkind=a\nlabel=name\nvalue=heparin\n", duplicate, 12);
    refuse_behind_name("depth=1\nkind=a\nlabel=name\nvalue=\n", duplicate, 12);
    refuse_behind_name("depth=1\nkind=a\nlabel=name\nvalue", duplicate, 12);
    refuse_behind_name("depth=1\nkind=a\nlabel=name\n", duplicate, 12);
    refuse_behind_name("depth=1\nkind=a\nlabel=name", YURZHOAD_LINE_FORM, 12);
    refuse_behind_name("depth=1\nkind=x\nlabel=name\nvalue=\n", YURZHOAD_LINE_FORM, 11);
    refuse_behind_name("depth=2\nkind=a\nlabel=name\nvalue=\n", YURZHOAD_TREE_RULE, 10);
    /* Another label, or another kind, is none: what is wrong is wrong behind it. */
    refuse_behind_name("depth=1\nkind=a\nlabel=names\nvalue", YURZHOAD_LINE_FORM, 13);
    refuse_behind_name("depth=1\nkind=e\nlabel=name\nvalue=x\n", YURZHOAD_TREE_RULE, 13);
}

static char long_document[YURZHOAD_MAX_DOCUMENT_BYTES + 1];

static void test_documents(void)
{
    memset(long_document, 'x', sizeof long_document);
    refuse_document(long_document, YURZHOAD_MAX_DOCUMENT_BYTES + 1, YURZHOAD_DOCUMENT_LENGTH, 0);
    refuse_document(long_document, YURZHOAD_MAX_DOCUMENT_BYTES, YURZHOAD_LINE_FORM, 1);
    refuse_document("", 0, YURZHOAD_LINE_FORM, 1);
    refuse_document(X, X_LENGTH - 1, YURZHOAD_LINE_FORM, 21);
    refuse_document(X, X_LENGTH + 1, YURZHOAD_LINE_FORM, 22);
    refuse_changed(7, "kind=x", YURZHOAD_LINE_FORM);
    refuse_document("nodes=0\n", 8, YURZHOAD_NODE_COUNT, 1);
    refuse_document("nodes=4097\n", 11, YURZHOAD_NODE_COUNT, 1);
    refuse_changed(3, "kind=a", YURZHOAD_TREE_RULE);
    refuse_changed(6, "depth=2", YURZHOAD_TREE_RULE);
    refuse_changed(10, "depth=3", YURZHOAD_TREE_RULE);
}

/* Puts a text so many times behind what is there. */
static void append(char *rule, size_t times, const char *text)
{
    while (times-- > 0) {
        strcat(rule, text);
    }
}

static void test_rules(void)
{
    static char rule[YURZHOAD_MAX_RULE_BYTES + 2];
    append(rule, YURZHOAD_MAX_RULE_BYTES + 1, "x");
    refuse_rule(rule, YURZHOAD_RULE_LENGTH, 0);
    rule[YURZHOAD_MAX_RULE_BYTES] = 0;
    refuse_rule(rule, YURZHOAD_UNREADABLE, 0);
    refuse_rule("", YURZHOAD_UNREADABLE, 0);
    refuse_rule(":a!", YURZHOAD_UNREADABLE, 2);
    refuse_rule("(e=\"c)", YURZHOAD_UNREADABLE, 6);
    refuse_rule("#4097e", YURZHOAD_UNREADABLE, 4);
    refuse_rule("#01e", YURZHOAD_UNREADABLE, 2);
    refuse_rule("#", YURZHOAD_UNREADABLE, 1);
    rule[0] = 0;
    append(rule, YURZHOAD_MAX_NESTING, "!");
    append(rule, 1, ":a");
    refuse_rule(rule, YURZHOAD_NESTING, YURZHOAD_MAX_NESTING);
    strcpy(rule, "!");
    append(rule, 21, "&!:a");
    append(rule, 1, ":a");
    refuse_rule(rule, YURZHOAD_TESTS, 85);
    strcpy(rule, "(");
    append(rule, YURZHOAD_MAX_STEPS, ".");
    append(rule, YURZHOAD_MAX_STEPS + 1, "l");
    append(rule, 1, "=e)");
    refuse_rule(rule, YURZHOAD_STEPS, 0);
    strcpy(rule, "!(");
    append(rule, YURZHOAD_MAX_STEPS, ".");
    append(rule, YURZHOAD_MAX_STEPS + 1, "l");
    append(rule, 1, "=e)");
    refuse_rule(rule, YURZHOAD_STEPS, 1);
    strcpy(rule, "!#3");
    append(rule, YURZHOAD_MAX_STEPS, ".");
    append(rule, YURZHOAD_MAX_STEPS + 1, "l");
    refuse_rule(rule, YURZHOAD_STEPS, 1);
}

/* A list with a number of no node, and a rule that is no equality, in their places among the others. */
static void test_lists(void)
{
    static const uint16_t none[] = {0, X_NODES};
    static const uint16_t far_off[] = {0xFFFF};
    const uint16_t *const values[] = {none, far_off};
    size_t turn;
    for (turn = 0; turn < 2; turn++) {
        call c = on_x("(e=e)");
        c.values = values[turn];
        c.values_length = 2 - turn;
        refuse_by(VALUES, &c, YURZHOAD_NO_SUCH_NODE, 0);
        c.marks_length = X_NODES - 1;
        refuse_by(VALUES, &c, YURZHOAD_MARKS_LENGTH, 0);
        c.scratch_words = X_WORDS - 1;
        refuse_by(VALUES, &c, YURZHOAD_SCRATCH_LENGTH, 0);
        c.rule = bytes_of("(e<e)");
        refuse_by(VALUES, &c, YURZHOAD_OTHER_COMPARISON, 0);
        c.rule = bytes_of("(e<e=");
        refuse_by(VALUES, &c, YURZHOAD_UNREADABLE, 4);
        c.document_length = 0;
        refuse_by(VALUES, &c, YURZHOAD_LINE_FORM, 1);
    }
}

/* One short of each buffer is refused; just enough, which the cases have, is not. */
static void test_lengths(void)
{
    size_t i;
    call c = on_x(":a");
    c.scratch_words = X_WORDS - 1;
    refuse(&c, YURZHOAD_SCRATCH_LENGTH, 0);
    c.marks_length = X_NODES - 1;
    refuse(&c, YURZHOAD_SCRATCH_LENGTH, 0);
    c.scratch_words = X_WORDS;
    refuse(&c, YURZHOAD_MARKS_LENGTH, 0);
    c.marks_length = X_NODES;
    CHECK(evaluate(PLAIN, &c).number == YURZHOAD_ACCEPTED);
    CHECK(evaluate(SNIPPETS, &c).number == YURZHOAD_ACCEPTED);
    subject = "each number is refused once or more";
    for (i = 1; i < NUMBERS; i++) {
        CHECK(refused[numbers[i]]);
    }
}

/* ---- null pointers and lengths that no buffer has ---- */

static void expect_by(int evaluation, const call *c, uint16_t number, size_t place)
{
    fill();
    CHECK(is_refused(evaluate(evaluation, c), number, place));
    CHECK(untouched());
}

/* By a list of values the rules that are used here are refused if nothing else is. */
static void expect(const call *c, uint16_t number, size_t place)
{
    int evaluation;
    for (evaluation = PLAIN; evaluation < EVALUATIONS; evaluation++) {
        expect_by(evaluation, c, number, place);
    }
    if (number == YURZHOAD_MISUSE) {
        expect_by(VALUES, c, number, place);
    }
}

/* A null pointer is misuse with a length, and an empty buffer without. */
static void test_null(void)
{
    call c = on_x(":drug");
    c.document = NULL;
    expect(&c, YURZHOAD_MISUSE, 1);
    c.document_length = 0;
    expect(&c, YURZHOAD_LINE_FORM, 1);
    CHECK(check_document(&c).number == YURZHOAD_LINE_FORM && check_document(&c).place == 1);
    c = on_x(":drug");
    c.rule = NULL;
    expect(&c, YURZHOAD_MISUSE, 2);
    c.rule_length = 0;
    expect(&c, YURZHOAD_UNREADABLE, 0);
    CHECK(check_rule(&c).number == YURZHOAD_UNREADABLE && check_rule(&c).place == 0);
    c = on_x(":drug");
    c.scratch = NULL;
    expect(&c, YURZHOAD_MISUSE, 3);
    c.scratch_words = 0;
    expect(&c, YURZHOAD_SCRATCH_LENGTH, 0);
    c = on_x(":drug");
    c.marks = NULL;
    expect(&c, YURZHOAD_MISUSE, 4);
    c.marks_length = 0;
    expect(&c, YURZHOAD_MARKS_LENGTH, 0);
    memset(&c, 0, sizeof c);
    expect(&c, YURZHOAD_LINE_FORM, 1);
}

/* The checks: null with a length, and a length that goes beyond the last address. */
static void test_misused_checks(void)
{
    call c = on_x(":drug");
    yurzhoad_document_answer d;
    yurzhoad_rule_answer r;
    int turn;
    for (turn = 0; turn < 2; turn++) {
        c.document = turn == 0 ? NULL : bytes_of(X);
        c.document_length = turn == 0 ? 1 : SIZE_MAX;
        d = check_document(&c);
        CHECK(d.number == YURZHOAD_MISUSE && d.place == 1 && d.nodes == 0);
        c.rule = turn == 0 ? NULL : bytes_of(X);
        c.rule_length = turn == 0 ? 1 : SIZE_MAX;
        r = check_rule(&c);
        CHECK(r.number == YURZHOAD_MISUSE && r.place == 2);
    }
}

/* Lengths that go beyond the last address, a product that does not fit, and an odd scratch. */
static void test_astray(void)
{
    call c = on_x(":drug");
    c.document_length = SIZE_MAX;
    expect(&c, YURZHOAD_MISUSE, 1);
    c = on_x(":drug");
    c.rule_length = SIZE_MAX;
    expect(&c, YURZHOAD_MISUSE, 2);
    c = on_x(":drug");
    c.scratch_words = SIZE_MAX;
    expect(&c, YURZHOAD_MISUSE, 3);
    c.scratch_words = SIZE_MAX / 2;
    expect(&c, YURZHOAD_MISUSE, 3);
    c.scratch_words = SIZE_MAX / 2 + 1;
    expect(&c, YURZHOAD_MISUSE, 3);
    c = on_x(":drug");
    c.marks_length = SIZE_MAX;
    expect(&c, YURZHOAD_MISUSE, 4);
    c = on_x(":drug");
    c.scratch = (uint16_t *)((uintptr_t)scratch + 1);
    expect(&c, YURZHOAD_MISUSE, 3);
    c.document = NULL;
    expect(&c, YURZHOAD_MISUSE, 1);
}

/* A list of values: null, beyond the last address, a product that does not fit, odd, and behind all others. */
static void test_misused_values(void)
{
    call c = on_x("(e=e)");
    c.values_length = 1;
    expect_by(VALUES, &c, YURZHOAD_MISUSE, 5);
    c.values = all_nodes;
    c.values_length = SIZE_MAX;
    expect_by(VALUES, &c, YURZHOAD_MISUSE, 5);
    c.values_length = SIZE_MAX / 2;
    expect_by(VALUES, &c, YURZHOAD_MISUSE, 5);
    c.values_length = SIZE_MAX / 2 + 1;
    expect_by(VALUES, &c, YURZHOAD_MISUSE, 5);
    c.values_length = 1;
    c.values = (const uint16_t *)((uintptr_t)all_nodes + 1);
    expect_by(VALUES, &c, YURZHOAD_MISUSE, 5);
    c.marks = NULL;
    expect_by(VALUES, &c, YURZHOAD_MISUSE, 4);
    c.document = NULL;
    expect_by(VALUES, &c, YURZHOAD_MISUSE, 1);
}

/* ---- buffers that overlap ---- */

/* One piece of memory for all four buffers. Apart, they lie so many bytes from each other. */
#define APART 4000

static uint16_t arena[5 * APART / 2];
static uint16_t before[5 * APART / 2];

/* The buffers by the numbers that misuse has for them. */
enum { DOCUMENT = 1, RULE, SCRATCH, MARKS };

static const char arena_rule[] = "(.l[:name]=..r*rl)";

static size_t length_of(int buffer)
{
    switch (buffer) {
    case DOCUMENT: return X_LENGTH;
    case RULE: return sizeof arena_rule - 1;
    case SCRATCH: return X_WORDS * sizeof(uint16_t);
    default: return X_NODES;
    }
}

/* Fills the memory, and writes document and rule at their offsets. */
static call lay(const size_t *offsets)
{
    uint8_t *bytes = (uint8_t *)arena;
    call c = on_x(arena_rule);
    memset(arena, MARK, sizeof arena);
    memcpy(bytes + offsets[DOCUMENT], X, X_LENGTH);
    memcpy(bytes + offsets[RULE], arena_rule, sizeof arena_rule - 1);
    memcpy(before, arena, sizeof arena);
    c.document = bytes + offsets[DOCUMENT];
    c.rule = bytes + offsets[RULE];
    c.scratch = arena + offsets[SCRATCH] / sizeof(uint16_t);
    c.marks = bytes + offsets[MARKS];
    return c;
}

/* All four apart, but one of them at this offset: the misused buffer, or 0 if there is none. */
static void try_at(int moved, size_t offset, size_t misused)
{
    size_t offsets[MARKS + 1] = {0, 0, APART, 2 * APART, 4 * APART - 500};
    int evaluation;
    offsets[moved] = offset;
    for (evaluation = PLAIN; evaluation < EVALUATIONS; evaluation++) {
        call c = lay(offsets);
        yurzhoad_evaluation e = evaluate(evaluation, &c);
        if (misused != 0) {
            CHECK(is_refused(e, YURZHOAD_MISUSE, misused));
            CHECK(memcmp(arena, before, sizeof arena) == 0);
        } else {
            CHECK(e.number == YURZHOAD_ACCEPTED && e.place == 0 && e.selected == 1);
            CHECK(e.snippets == (evaluation == PLAIN ? 0 : 19));
            CHECK(memcmp(c.marks, "\0\1\0\0\0", X_NODES) == 0);
        }
    }
}

/* Moves one buffer along another, which lies at this offset: beside it, and into it by a byte. */
static void try_pair(int moved, int other, size_t at)
{
    size_t later = (size_t)(moved > other ? moved : other);
    size_t end = at + length_of(other);
    size_t before_it = at - length_of(moved);
    try_at(moved, end, 0);
    try_at(moved, end - 1, later);
    try_at(moved, before_it, 0);
    try_at(moved, before_it + 1, later);
    try_at(moved, at, later);
}

static void test_overlap(void)
{
    try_pair(DOCUMENT, SCRATCH, 2 * APART);
    try_pair(RULE, SCRATCH, 2 * APART);
    try_pair(MARKS, SCRATCH, 2 * APART);
    try_pair(MARKS, RULE, APART);
    /* The document at 0 has nothing in front of it. */
    try_at(MARKS, X_LENGTH, 0);
    try_at(MARKS, X_LENGTH - 1, MARKS);
    try_at(MARKS, 0, MARKS);
    /* The scratch around another. */
    try_at(SCRATCH, APART - 2, SCRATCH);
    try_at(SCRATCH, 0, SCRATCH);
}

/* A list in the scratch or in the marks is misused, by one byte too, and beside them it is not. */
static void test_overlapping_values(void)
{
    call c = on_x("(e=e)");
    c.scratch = scratch + 8;
    c.marks = marks + 8;
    c.values_length = 2;
    c.values = c.scratch + X_WORDS - 1;
    expect_by(VALUES, &c, YURZHOAD_MISUSE, 5);
    c.values = c.scratch - 1;
    expect_by(VALUES, &c, YURZHOAD_MISUSE, 5);
    c.values = (const uint16_t *)(const void *)(c.marks + ((uintptr_t)c.marks + 4) % 2 + 4);
    expect_by(VALUES, &c, YURZHOAD_MISUSE, 5);
    /* What lies beside them holds numbers of no node. */
    c.values = c.scratch + X_WORDS;
    expect_by(VALUES, &c, YURZHOAD_NO_SUCH_NODE, 0);
    c.values = c.scratch - 2;
    expect_by(VALUES, &c, YURZHOAD_NO_SUCH_NODE, 0);
    /* An empty list overlaps nothing. */
    c.values = c.scratch;
    c.values_length = 0;
    fill();
    CHECK(evaluate(VALUES, &c).selected == X_NODES);
}

/* The document and the rule may overlap: here the rule is a value in the document. */
static void test_rule_in_document(void)
{
    static const char document[] =
        "nodes=2\ndepth=0\nkind=e\nlabel=drug\nvalue=\ndepth=1\nkind=a\nlabel=rule\nvalue=:drug\n";
    call c = on_x("");
    int evaluation;
    c.document = bytes_of(document);
    c.document_length = sizeof document - 1;
    c.rule = bytes_of(strchr(document, ':'));
    c.rule_length = 5;
    for (evaluation = PLAIN; evaluation < EVALUATIONS; evaluation++) {
        yurzhoad_evaluation e;
        fill();
        e = evaluate(evaluation, &c);
        CHECK(e.number == YURZHOAD_ACCEPTED && e.selected == 1 && e.snippets == 0);
        CHECK(marks[0] == 1 && marks[1] == 0);
    }
}

/* Empty buffers overlap nothing, wherever they point. */
static void test_empty(void)
{
    call c = on_x(":drug");
    c.marks = (uint8_t *)scratch + 1;
    c.marks_length = 0;
    expect(&c, YURZHOAD_MARKS_LENGTH, 0);
    c = on_x(":drug");
    c.rule = marks + 1;
    c.rule_length = 0;
    expect(&c, YURZHOAD_UNREADABLE, 0);
}

/* ---- the bare functions ---- */

static void test_bare(void)
{
    call c = on_x("(e=e)");
    yurzhoad_evaluation e;
    yurzhoad_evaluation (*pointer)(
        const uint8_t *, size_t, const uint8_t *, size_t,
        uint16_t *, size_t, uint8_t *, size_t) = yurzhoad_evaluate_plain;
    subject = "bare";
    CHECK((yurzhoad_check_document)(c.document, c.document_length).nodes == X_NODES);
    CHECK((yurzhoad_check_rule)(c.rule, c.rule_length).number == YURZHOAD_ACCEPTED);
    e = pointer(
        c.document, c.document_length, c.rule, c.rule_length,
        scratch, X_WORDS, marks, X_NODES);
    CHECK(e.number == YURZHOAD_ACCEPTED && e.selected == X_NODES && e.snippets == 0);
    e = (yurzhoad_evaluate_snippets)(
        c.document, c.document_length, c.rule, c.rule_length,
        scratch, X_WORDS, marks, X_NODES);
    CHECK(e.number == YURZHOAD_ACCEPTED && e.selected == X_NODES && e.snippets == 4);
    e = (yurzhoad_evaluate_values)(
        c.document, c.document_length, c.rule, c.rule_length, all_nodes, X_NODES,
        scratch, X_WORDS, marks, X_NODES);
    CHECK(e.number == YURZHOAD_ACCEPTED && e.selected == X_NODES && e.snippets == 4);
}

/* ---- words for numbers, and words of scratch ---- */

/* 1 if two numbers have the same words. No compiler knows them beforehand. */
static int same_words(uint16_t a, uint16_t b)
{
    volatile uint16_t first = a;
    volatile uint16_t second = b;
    return strcmp(yurzhoad_words(first), yurzhoad_words(second)) == 0;
}

static void test_words(void)
{
    static const uint16_t others[] = {12, 15, 22, 24, 255, 256, 0xFFFE};
    size_t a;
    size_t b;
    size_t i;
    subject = "words";
    for (i = 0; i < sizeof others / sizeof others[0]; i++) {
        CHECK(strcmp(yurzhoad_words(others[i]), "unknown number") == 0);
    }
    CHECK(!same_words(YURZHOAD_MISUSE, 12));
    for (a = 0; a < NUMBERS; a++) {
        CHECK(strlen(yurzhoad_words(numbers[a])) > 0);
        CHECK(!same_words(numbers[a], 12));
        CHECK(!same_words(numbers[a], YURZHOAD_MISUSE));
        for (b = 0; b < a; b++) {
            CHECK(!same_words(numbers[a], numbers[b]));
        }
    }
}

/* The same by adding: 128 words a node, and 64 for each power of two up to the number of nodes. */
static size_t words_otherwise(size_t nodes)
{
    size_t of_node = 128;
    size_t power;
    size_t sum = 0;
    size_t i;
    for (power = 1; power <= nodes; power += power) {
        of_node += 64;
    }
    for (i = 0; i < nodes; i++) {
        sum += of_node;
    }
    return sum;
}

static void test_needed_words(void)
{
    size_t nodes;
    subject = "needed words";
    for (nodes = 0; nodes <= YURZHOAD_MAX_NODES; nodes++) {
        CHECK(yurzhoad_needed_words(nodes) == words_otherwise(nodes));
    }
    CHECK(yurzhoad_needed_words(0) == 0);
    CHECK(yurzhoad_needed_words(1) == 192);
    CHECK(yurzhoad_needed_words(2) == 512);
    CHECK(yurzhoad_needed_words(3) == 768);
    CHECK(yurzhoad_needed_words(4) == 1280);
    CHECK(yurzhoad_needed_words(5) == X_WORDS);
    CHECK(yurzhoad_needed_words(63) == 32256);
    CHECK(yurzhoad_needed_words(64) == 36864);
    CHECK(yurzhoad_needed_words(4095) == 3669120);
    CHECK(yurzhoad_needed_words(4096) == 3932160);
    CHECK(yurzhoad_needed_words(YURZHOAD_MAX_NODES) == YURZHOAD_MAX_WORDS);
    CHECK(yurzhoad_needed_words(YURZHOAD_MAX_NODES + 1) == YURZHOAD_MAX_WORDS);
    CHECK(yurzhoad_needed_words(SIZE_MAX) == YURZHOAD_MAX_WORDS);
}

/* ---- a document of the most nodes: a root and its children ---- */

static size_t write_large(char *document)
{
    static const char child[] = "depth=1\nkind=e\nlabel=a\nvalue=\n";
    char *end = document;
    size_t v;
    strcpy(document, "nodes=4096\ndepth=0\nkind=e\nlabel=a\nvalue=\n");
    end += strlen(document);
    for (v = 1; v < YURZHOAD_MAX_NODES; v++) {
        memcpy(end, child, sizeof child - 1);
        end += sizeof child - 1;
    }
    return (size_t)(end - document);
}

/* (r=e) selects every child but the last: the root has no right child. */
static void test_large(void)
{
    call c = on_x("(r=e)");
    int evaluation;
    size_t v;
    c.document = bytes_of(long_document);
    c.document_length = write_large(long_document);
    c.scratch_words = YURZHOAD_MAX_WORDS;
    c.marks_length = YURZHOAD_MAX_NODES;
    CHECK(check_document(&c).nodes == YURZHOAD_MAX_NODES);
    for (evaluation = PLAIN; evaluation < EVALUATIONS; evaluation++) {
        yurzhoad_evaluation e;
        fill();
        e = evaluate(evaluation, &c);
        CHECK(e.number == YURZHOAD_ACCEPTED && e.place == 0);
        CHECK(e.selected == YURZHOAD_MAX_NODES - 2);
        CHECK((e.snippets == 0) == (evaluation == PLAIN));
        for (v = 0; v < YURZHOAD_MAX_NODES; v++) {
            CHECK(marks[v] == (v == 0 || v == YURZHOAD_MAX_NODES - 1 ? 0 : 1));
        }
        CHECK(words_are(0, YURZHOAD_MAX_WORDS, 0));
        CHECK(words_are(YURZHOAD_MAX_WORDS, YURZHOAD_MAX_WORDS + 8, WORD));
        CHECK(marks_are(YURZHOAD_MAX_NODES, YURZHOAD_MAX_NODES + 8, MARK));
    }
    c.scratch_words = YURZHOAD_MAX_WORDS - 1;
    expect(&c, YURZHOAD_SCRATCH_LENGTH, 0);
}

/* So many nodes are selected of the same document: the root has all others inside. */
static void count_large(const char *rule, size_t selected)
{
    call c = on_x(rule);
    int evaluation;
    c.document = bytes_of(long_document);
    c.document_length = write_large(long_document);
    c.scratch_words = YURZHOAD_MAX_WORDS;
    c.marks_length = YURZHOAD_MAX_NODES;
    for (evaluation = PLAIN; evaluation < EVALUATIONS; evaluation++) {
        yurzhoad_evaluation e;
        fill();
        e = evaluate(evaluation, &c);
        subject = rule;
        CHECK(e.number == YURZHOAD_ACCEPTED && e.place == 0);
        CHECK(e.selected == selected && e.snippets == 0);
        CHECK(marks[0] == (selected > 0 ? 1 : 0));
    }
}

/* The same document by its one value, given by each node, from the last to the first; there is no node behind. */
static void test_large_values(void)
{
    static uint16_t values[YURZHOAD_MAX_NODES];
    call c = on_x("(r=e)");
    yurzhoad_evaluation by_snippets;
    yurzhoad_evaluation by_values;
    size_t v;
    for (v = 0; v < YURZHOAD_MAX_NODES; v++) {
        values[v] = (uint16_t)(YURZHOAD_MAX_NODES - 1 - v);
    }
    c.document = bytes_of(long_document);
    c.document_length = write_large(long_document);
    c.scratch_words = YURZHOAD_MAX_WORDS;
    c.marks_length = YURZHOAD_MAX_NODES;
    c.values = values;
    by_snippets = evaluate(SNIPPETS, &c);
    for (v = 1; v <= YURZHOAD_MAX_NODES; v += YURZHOAD_MAX_NODES - 1) {
        c.values_length = v;
        fill();
        by_values = evaluate(VALUES, &c);
        CHECK(by_values.number == YURZHOAD_ACCEPTED && by_values.place == 0);
        CHECK(by_values.selected == YURZHOAD_MAX_NODES - 2);
        CHECK(by_values.snippets == by_snippets.snippets && by_values.snippets > 0);
        CHECK(words_are(0, YURZHOAD_MAX_WORDS, 0));
        CHECK(words_are(YURZHOAD_MAX_WORDS, YURZHOAD_MAX_WORDS + 8, WORD));
        CHECK(marks_are(YURZHOAD_MAX_NODES, YURZHOAD_MAX_NODES + 8, MARK));
    }
    c.values_length = 0;
    CHECK(evaluate(VALUES, &c).selected == 0);
    values[7] = YURZHOAD_MAX_NODES;
    c.values_length = 8;
    expect_by(VALUES, &c, YURZHOAD_NO_SUCH_NODE, 0);
}

MUST(most_counted, YURZHOAD_MAX_COUNT == 4096 && YURZHOAD_MAX_NODES == 4096);

static void test_large_counts(void)
{
    count_large("#4095.l*r", 1);
    count_large("#4096.l*r", 0);
    count_large("#4096*+lr", 1);
}

int main(void)
{
    test_cases();
    test_padded();
    test_limits();
    test_counts();
    test_values();
    test_all_values();
    test_documents();
    test_duplicates();
    test_rules();
    test_lists();
    test_lengths();
    test_null();
    test_misused_checks();
    test_misused_values();
    test_astray();
    test_overlap();
    test_overlapping_values();
    test_rule_in_document();
    test_empty();
    test_bare();
    test_words();
    test_needed_words();
    test_large();
    test_large_values();
    test_large_counts();
    printf("c: %lu checks, %lu failed\n", checks, failures);
    return failures > 0 || checks == 0;
}
