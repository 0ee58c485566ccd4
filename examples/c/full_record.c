#include "f2c.h"

static integer c__1 = 1;
static integer c__3 = 3;
static integer c__8 = 8;

int MAIN__(void)
{
    extern integer s_wsle(cilist *);
    extern integer do_lio(integer *, integer *, char *, ftnlen);
    extern integer e_wsle(void);
    static integer i__ = -2147483647;
    integer i__1;
    static cilist io___1 = { 0, 6, 0, 0, 0 };

    s_wsle(&io___1);
    for (i__1 = 1; i__1 <= 7; ++i__1) {
        do_lio(&c__3, &c__1, (char *)&i__, (ftnlen)sizeof(integer));
    }
    do_lio(&c__8, &c__1, (char *)&c__1, (ftnlen)sizeof(integer));
    e_wsle();
    return 0;
}
