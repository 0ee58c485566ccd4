#include "f2c.h"

static integer c__1 = 1;
static integer c__3 = 3;

int count_(void)
{
    static integer n;

    n = n + 1;
    return n;
}

int MAIN__(void)
{
    extern integer s_wsle(cilist *);
    extern integer do_lio(integer *, integer *, char *, ftnlen);
    extern integer e_wsle(void);
    extern int count_(void);
    integer i__1;
    static cilist io___1 = { 0, 6, 0, 0, 0 };

    count_();
    count_();
    i__1 = count_();
    s_wsle(&io___1);
    do_lio(&c__3, &c__1, (char *)&i__1, (ftnlen)sizeof(integer));
    e_wsle();
    return 0;
}
