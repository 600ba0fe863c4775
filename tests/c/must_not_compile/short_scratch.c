/* refused by gcc: Werror=stringop-overflow */
/* A scratch that is shorter than its length: bytes are counted, not words. */
#include "yurzhoad.h"

static const uint8_t document[8] = {0};
static const uint8_t rule[] = {58, 97};
static uint16_t scratch[192];
static uint8_t marks[1];
#ifdef GOOD
#define WORDS (sizeof scratch / sizeof scratch[0])
#else
#define WORDS sizeof scratch
#endif

int main(void)
{
    return yurzhoad_evaluate_snippets(
        document, sizeof document, rule, sizeof rule, scratch, WORDS, marks, 1).number;
}
