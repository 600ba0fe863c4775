/* refused by gcc: Werror=restrict */
/* The document once more as the marks. */
#include "yurzhoad.h"

static uint8_t document[8];
static const uint8_t rule[] = {58, 97};
static uint16_t scratch[192];
#ifdef GOOD
static uint8_t marks[8];
#else
#define marks document
#endif

int main(void)
{
    return yurzhoad_evaluate_snippets(
        document, sizeof document, rule, sizeof rule, scratch, 192, marks, 8).number;
}
