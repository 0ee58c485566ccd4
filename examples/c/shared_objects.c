#include "f2c.h"

integer b_[3] = { 1, 2, 3 };
char n_[4] = "ab";

static integer c__1 = 1;
static integer c__3 = 3;

int set_(integer *i__)
{
    b_[*i__] = *(unsigned char *)n_ - 90;
    return 0;
}

int MAIN__(void)
{
    extern integer s_wsle(cilist *);
    extern integer do_lio(integer *, integer *, char *, ftnlen);
    extern integer e_wsle(void);
    extern int set_(integer *);
    static integer i__ = 2;
    integer i__1;
    static cilist io___1 = { 0, 6, 0, 0, 0 };

    set_(&i__);
    i__1 = b_[0] + 10 * b_[1] + 100 * b_[2];
    s_wsle(&io___1);
    do_lio(&c__3, &c__1, (char *)&i__1, (ftnlen)sizeof(integer));
    e_wsle();
    return 0;
}
