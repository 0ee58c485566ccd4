#include "f2c.h"

static integer c__1 = 1;
static integer c__3 = 3;

int swap_(integer *i__, integer *j)
{
    integer i__1;

    i__1 = *i__;
    *i__ = *j;
    *j = i__1;
    return 0;
}

int MAIN__(void)
{
    extern integer s_wsle(cilist *);
    extern integer do_lio(integer *, integer *, char *, ftnlen);
    extern integer e_wsle(void);
    extern int swap_(integer *, integer *);
    static integer i__ = 5;
    static integer j = 8;
    static cilist io___1 = { 0, 6, 0, 0, 0 };

    swap_(&i__, &j);
    s_wsle(&io___1);
    do_lio(&c__3, &c__1, (char *)&i__, (ftnlen)sizeof(integer));
    do_lio(&c__3, &c__1, (char *)&j, (ftnlen)sizeof(integer));
    e_wsle();
    return 0;
}
