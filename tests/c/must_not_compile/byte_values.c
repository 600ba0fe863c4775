/* refused: incompatible-pointer-types */
/* Bytes in the place of the numbers of a list. */
#include "yurzhoad.h"

static const uint8_t document[8] = {0};
static const uint8_t rule[] = {58, 97};
#ifdef GOOD
static const uint16_t values[1] = {0};
#else
static const uint8_t values[2] = {0};
#endif
static uint16_t scratch[192];
static uint8_t marks[1];

int main(void)
{
    return yurzhoad_evaluate_values(
        document, sizeof document, rule, sizeof rule, values, 1, scratch, 192, marks, 1).number;
}
