#include "f2c.h"
static integer c__1 = 1;
static integer c__3 = 3;
int MAIN__(void)
{
    extern integer s_rsle(cilist *);
    extern integer do_lio(integer *, integer *, char *, ftnlen);
    extern integer e_rsle(void);
    extern integer s_wsle(cilist *);
    extern integer e_wsle(void);
    static integer i__;
    static cilist io___1 = { 0, 5, 0, 0, 0 };
    static cilist io___2 = { 0, 6, 0, 0, 0 };
    s_rsle(&io___1);
    do_lio(&c__3, &c__1, (char *)&i__, (ftnlen)sizeof(integer));
    e_rsle();
    s_wsle(&io___2);
    do_lio(&c__3, &c__1, (char *)&i__, (ftnlen)sizeof(integer));
    e_wsle();
    return 0;
}
