/* What the peers in C and C++ share: they are asked on standard input and answer on standard output, a line each. The benchmark asks one peer at a time, so that all take turns, and keeps them running, so that none is timed while it starts.

   The first line that a peer writes is its version. Then it answers requests until its input ends:

       document FILE
           reads the file into memory; answers with its number of bytes
       run NANOSECONDS EXPRESSION
           makes calls until so much time has passed, and at least one; answers with the number of nodes that the expression selects, the number of calls and the nanoseconds that they took together

   One call parses the document from memory, reads the expression and evaluates it, and gives back all that it took. A peer that cannot do what it is asked says why on standard error, and ends.

   This file is C11 and C++11 at once. */
#ifndef PEER_H
#define PEER_H

#include <inttypes.h>
#include <stdint.h>
#include <stdio.h>
#include <stdlib.h>
#include <string.h>
#include <time.h>

/* One call: the number of nodes that the expression selects in the document. */
typedef size_t (*peer_call)(const char *document, size_t length, const char *expression);

/* The document that was read last. */
typedef struct {
    char *bytes;
    size_t length;
} peer_document;

static void peer_fail(const char *words, const char *about)
{
    fprintf(stderr, "%s: %s\n", words, about);
    exit(1);
}

/* The clock that nobody sets. */
static int64_t peer_nanoseconds(void)
{
    struct timespec now;
    if (clock_gettime(CLOCK_MONOTONIC, &now) != 0)
        peer_fail("no clock", "CLOCK_MONOTONIC");
    return (int64_t)now.tv_sec * 1000000000 + now.tv_nsec;
}

static peer_document peer_read(const char *name)
{
    peer_document document = {NULL, 0};
    FILE *file = fopen(name, "rb");
    long length = -1;
    if (file != NULL && fseek(file, 0, SEEK_END) == 0)
        length = ftell(file);
    if (length < 0 || fseek(file, 0, SEEK_SET) != 0)
        peer_fail("cannot be read", name);
    document.length = (size_t)length;
    document.bytes = (char *)malloc(document.length + 1);
    if (document.bytes == NULL)
        peer_fail("too large", name);
    if (fread(document.bytes, 1, document.length, file) != document.length)
        peer_fail("cannot be read", name);
    fclose(file);
    return document;
}

static void peer_run(peer_call call, const peer_document *document, const char *request)
{
    char *expression = NULL;
    int64_t length = strtoll(request, &expression, 10);
    int64_t start = 0;
    int64_t passed = 0;
    int64_t calls = 0;
    size_t selected = 0;
    if (document->bytes == NULL || *expression != ' ')
        peer_fail("no document, or no such request", request);
    start = peer_nanoseconds();
    do {
        selected = call(document->bytes, document->length, expression + 1);
        calls += 1;
        passed = peer_nanoseconds() - start;
    } while (passed < length);
    printf("%zu %" PRId64 " %" PRId64 "\n", selected, calls, passed);
}

/* What stands behind a word that the line begins with, or NULL. */
static const char *peer_behind(const char *line, const char *word)
{
    size_t length = strlen(word);
    return strncmp(line, word, length) == 0 ? line + length : NULL;
}

/* Answers requests until the input ends. */
static int peer_serve(const char *version, peer_call call)
{
    peer_document document = {NULL, 0};
    char line[4096];
    printf("%s\n", version);
    fflush(stdout);
    while (fgets(line, sizeof line, stdin) != NULL) {
        const char *rest = NULL;
        line[strcspn(line, "\n")] = '\0';
        if ((rest = peer_behind(line, "document ")) != NULL) {
            free(document.bytes);
            document = peer_read(rest);
            printf("%zu\n", document.length);
        } else if ((rest = peer_behind(line, "run ")) != NULL) {
            peer_run(call, &document, rest);
        } else {
            peer_fail("no such request", line);
        }
        fflush(stdout);
    }
    free(document.bytes);
    return 0;
}

#endif
