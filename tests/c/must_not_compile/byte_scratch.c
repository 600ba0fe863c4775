/* refused: incompatible-pointer-types */
/* Bytes in the place of the words of the scratch. */
#include "yurzhoad.h"

static const uint8_t document[8] = {0};
static const uint8_t rule[] = {58, 97};
#ifdef GOOD
static uint16_t scratch[192];
#else
static uint8_t scratch[384];
#endif
static uint8_t marks[1];

int main(void)
{
    return yurzhoad_evaluate_snippets(
        document, sizeof document, rule, sizeof rule, scratch, 192, marks, 1).number;
}
