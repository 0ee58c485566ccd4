#include "f2c.h"

static integer c__1 = 1;
static integer c__3 = 3;

integer plus_(integer *i__, int n)
{
    return *i__ + n;
}

integer twice_(integer *i__)
{
    return plus_(i__, *i__);
}

int MAIN__(void)
{
    extern integer s_wsle(cilist *);
    extern integer do_lio(integer *, integer *, char *, ftnlen);
    extern integer e_wsle(void);
    extern integer twice_(integer *);
    static integer i__ = 4;
    integer i__1;
    static cilist io___1 = { 0, 6, 0, 0, 0 };

    i__1 = twice_(&i__);
    s_wsle(&io___1);
    do_lio(&c__3, &c__1, (char *)&i__1, (ftnlen)sizeof(integer));
    e_wsle();
    return 0;
}
