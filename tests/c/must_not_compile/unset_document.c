/* refused by gcc: uninitialized */
/* A document that nothing was written to. The marks need not be written before. */
#include "yurzhoad.h"

static const uint8_t rule[] = {58, 97};
static uint16_t scratch[192];

int main(void)
{
    uint8_t marks[1];
#ifdef GOOD
    uint8_t document[8] = {0};
#else
    uint8_t document[8];
#endif
    return yurzhoad_evaluate_plain(
        document, sizeof document, rule, sizeof rule, scratch, 192, marks, 1).number;
}
