#include "f2c.h"

static integer c__1 = 1;
static integer c__3 = 3;

int MAIN__(void)
{
    extern integer s_wsle(cilist *);
    extern integer do_lio(integer *, integer *, char *, ftnlen);
    extern integer e_wsle(void);
    extern integer pow_ii(integer *, integer *);
    extern integer i_sign(integer *, integer *);
    extern integer i_dim(integer *, integer *);
    static integer m = -3;
    static integer n = 5;
    integer i__1;
    integer i__2;
    integer i__3;
    static cilist io___1 = { 0, 6, 0, 0, 0 };

    i__1 = pow_ii(&m, &n);
    i__2 = i_sign(&n, &m);
    i__3 = i_dim(&n, &m);
    s_wsle(&io___1);
    do_lio(&c__3, &c__1, (char *)&i__1, (ftnlen)sizeof(integer));
    do_lio(&c__3, &c__1, (char *)&i__2, (ftnlen)sizeof(integer));
    do_lio(&c__3, &c__1, (char *)&i__3, (ftnlen)sizeof(integer));
    e_wsle();
    return 0;
}
