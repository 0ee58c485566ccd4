#include "f2c.h"

int MAIN__(void)
{
    i__2 = 1;
    return 0;
}
