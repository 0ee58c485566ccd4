#include "f2c.h"

int MAIN__(void)
{
    integer i__1;

    i__1 = 1 / 0;
    return 0;
}
