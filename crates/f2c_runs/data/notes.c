#include "f2c.h"

static integer c__1 = 1;
static integer c__3 = 3;

int MAIN__(void)
{
    extern integer f_open(olist *);
    extern integer f_clos(cllist *);
    extern integer s_wsle(cilist *);
    extern integer do_lio(integer *, integer *, char *, ftnlen);
    extern integer e_wsle(void);
    static integer n = 7;
    static olist o___1 = { 0, 8, "notes", 5, 0, 0, 0, 0, 0 };
    static cllist cl___1 = { 0, 8, 0 };
    static cilist io___1 = { 0, 8, 0, 0, 0 };

    f_open(&o___1);
    s_wsle(&io___1);
    do_lio(&c__3, &c__1, (char *)&n, (ftnlen)sizeof(integer));
    e_wsle();
    f_clos(&cl___1);
    return 0;
}
