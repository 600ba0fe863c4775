/* refused by gcc: Werror=nonnull */
/* A null pointer with a length. */
#include "yurzhoad.h"

#ifdef GOOD
#define LENGTH 0
#else
#define LENGTH 8
#endif

int main(void)
{
    return yurzhoad_check_document(NULL, LENGTH).number;
}
