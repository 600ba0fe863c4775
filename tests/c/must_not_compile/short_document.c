/* refused by gcc: Werror=stringop-overread */
/* A document that is shorter than its length. */
#include "yurzhoad.h"

#ifdef GOOD
static const uint8_t document[9] = {0};
#else
static const uint8_t document[8] = {0};
#endif

int main(void)
{
    return yurzhoad_check_document(document, 9).number;
}
