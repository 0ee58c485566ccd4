#include "f2c.h"

static integer c__1 = 1;
static integer c__3 = 3;

int double_(integer *i__)
{
    *i__ = 2 * *i__;
    return 0;
}

int apply_(S_fp f, integer *i__)
{
    (*f)(i__);
    return 0;
}

int MAIN__(void)
{
    extern integer s_wsle(cilist *);
    extern integer do_lio(integer *, integer *, char *, ftnlen);
    extern integer e_wsle(void);
    extern int apply_(S_fp, integer *);
    extern int double_(integer *);
    static integer i__ = 21;
    static cilist io___1 = { 0, 6, 0, 0, 0 };

    apply_((S_fp)double_, &i__);
    s_wsle(&io___1);
    do_lio(&c__3, &c__1, (char *)&i__, (ftnlen)sizeof(integer));
    e_wsle();
    return 0;
}
