#include "f2c.h"

static integer c__1 = 1;
static integer c__2 = 2;
static integer c__9 = 9;

int MAIN__(void)
{
    extern integer s_wsle(cilist *);
    extern integer do_lio(integer *, integer *, char *, ftnlen);
    extern integer e_wsle(void);
    extern VOID s_cat(char *, address *, integer *, integer *, ftnlen);
    address a__1[2];
    integer i__1[2];
    static char t[8];
    static cilist io___1 = { 0, 6, 0, 0, 0 };

    a__1[0] = "left";
    i__1[0] = 2;
    a__1[1] = "right";
    i__1[1] = 5;
    s_cat(t, a__1, i__1, &c__2, (ftnlen)8);
    s_wsle(&io___1);
    do_lio(&c__9, &c__1, t, (ftnlen)8);
    e_wsle();
    return 0;
}
