/* refused: too few arguments */
/* A buffer without its length. */
#include "yurzhoad.h"

static const uint8_t rule[] = {58, 97};

int main(void)
{
#ifdef GOOD
    return yurzhoad_check_rule(rule, sizeof rule).number;
#else
    return yurzhoad_check_rule(rule).number;
#endif
}
