/* refused by gcc: Werror=restrict */
/* The scratch once more as the marks. */
#include "yurzhoad.h"

static const uint8_t document[8] = {0};
static const uint8_t rule[] = {58, 97};
static uint16_t scratch[192];
#ifdef GOOD
static uint8_t marks[1];
#define MARKS marks
#else
#define MARKS (uint8_t *)scratch
#endif

int main(void)
{
    return yurzhoad_evaluate_plain(
        document, sizeof document, rule, sizeof rule, scratch, 192, MARKS, 1).number;
}
