/* refused by gcc: Werror=restrict */
/* The rule once more as the marks, past the check, to the bare function. */
#include "yurzhoad.h"

static const uint8_t document[8] = {0};
static uint8_t rule[8];
static uint16_t scratch[192];
#ifdef GOOD
static uint8_t marks[8];
#else
#define marks rule
#endif

int main(void)
{
    return (yurzhoad_evaluate_plain)(
        document, sizeof document, rule, sizeof rule, scratch, 192, marks, 8).number;
}
