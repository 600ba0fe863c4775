/* refused by gcc: Werror=stringop-overread */
/* A rule that is shorter than its length. */
#include "yurzhoad.h"

#ifdef GOOD
static const uint8_t rule[3] = {58, 97, 97};
#else
static const uint8_t rule[2] = {58, 97};
#endif

int main(void)
{
    return yurzhoad_check_rule(rule, 3).number;
}
