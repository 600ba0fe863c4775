/* A second file that includes the header: what the header defines must not be defined twice. */
#include "yurzhoad.h"

/* Called by calls.c. */
yurzhoad_rule_answer second_check_rule(const uint8_t *rule, size_t length);

yurzhoad_rule_answer second_check_rule(const uint8_t *rule, size_t length)
{
    return yurzhoad_check_rule(rule, length);
}
