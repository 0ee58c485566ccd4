#include "f2c.h"

static integer c__1 = 1;
static integer c__9 = 9;

int MAIN__(void)
{
    extern integer s_wsle(cilist *);
    extern integer do_lio(integer *, integer *, char *, ftnlen);
    extern integer e_wsle(void);
    extern VOID s_copy(char *, char *, ftnlen, ftnlen);
    static char t[6];
    static char u[3] = "xyz";
    static cilist io___1 = { 0, 6, 0, 0, 0 };

    s_copy(t, u, (ftnlen)6, (ftnlen)3);
    s_copy(t + 1, t, (ftnlen)2, (ftnlen)6);
    s_wsle(&io___1);
    do_lio(&c__9, &c__1, t, (ftnlen)6);
    e_wsle();
    return 0;
}
