/* refused: discard */
/* Marks that must not be written. */
#include "yurzhoad.h"

static const uint8_t document[8] = {0};
static const uint8_t rule[] = {58, 97};
static uint16_t scratch[192];
#ifdef GOOD
static uint8_t marks[1];
#else
static const uint8_t marks[1] = {0};
#endif

int main(void)
{
    return yurzhoad_evaluate_plain(
        document, sizeof document, rule, sizeof rule, scratch, 192, marks, 1).number;
}
