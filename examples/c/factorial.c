#include "f2c.h"

static integer c__1 = 1;
static integer c__3 = 3;

int MAIN__(void)
{
    extern integer s_wsle(cilist *);
    extern integer do_lio(integer *, integer *, char *, ftnlen);
    extern integer e_wsle(void);
    integer i__1;
    integer i__2;
    static cilist io___1 = { 0, 6, 0, 0, 0 };

    i__1 = 1;
    for (i__2 = 12; i__2 > 1; --i__2) {
        i__1 = i__1 * i__2;
    }
    s_wsle(&io___1);
    do_lio(&c__3, &c__1, (char *)&i__1, (ftnlen)sizeof(integer));
    e_wsle();
    return 0;
}
