/* refused by gcc: Werror=stringop-overread */
/* A list that is shorter than its length: bytes are counted, not numbers. */
#include "yurzhoad.h"

static const uint8_t document[8] = {0};
static const uint8_t rule[] = {58, 97};
static const uint16_t values[4] = {0};
static uint16_t scratch[192];
static uint8_t marks[1];
#ifdef GOOD
#define LENGTH (sizeof values / sizeof values[0])
#else
#define LENGTH sizeof values
#endif

int main(void)
{
    return yurzhoad_evaluate_values(
        document, sizeof document, rule, sizeof rule, values, LENGTH, scratch, 192, marks, 1).number;
}
