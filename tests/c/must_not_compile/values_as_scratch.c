/* refused by gcc: Werror=restrict */
/* The list of values once more as the scratch. */
#include "yurzhoad.h"

static const uint8_t document[8] = {0};
static const uint8_t rule[] = {58, 97};
static uint16_t values[192];
static uint8_t marks[1];
#ifdef GOOD
static uint16_t scratch[192];
#else
#define scratch values
#endif

int main(void)
{
    return yurzhoad_evaluate_values(
        document, sizeof document, rule, sizeof rule, values, 1, scratch, 192, marks, 1).number;
}
