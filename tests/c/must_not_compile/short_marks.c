/* refused by gcc: Werror=stringop-overflow */
/* Marks that are fewer than their length. */
#include "yurzhoad.h"

static const uint8_t document[8] = {0};
static const uint8_t rule[] = {58, 97};
static uint16_t scratch[192];
#ifdef GOOD
static uint8_t marks[64];
#else
static uint8_t marks[63];
#endif

int main(void)
{
    return yurzhoad_evaluate_plain(
        document, sizeof document, rule, sizeof rule, scratch, 192, marks, 64).number;
}
