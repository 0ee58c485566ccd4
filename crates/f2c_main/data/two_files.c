#include "f2c.h"

static integer c__1 = 1;
static integer c__3 = 3;

int MAIN__(void)
{
    extern integer f_open(olist *);
    extern integer f_clos(cllist *);
    extern integer s_wsle(cilist *);
    extern integer do_lio(integer *, integer *, char *, ftnlen);
    extern integer e_wsle(void);
    static integer m = 8;
    static integer n = 9;
    static olist o___1 = { 0, 8, "second", 6, 0, 0, 0, 0, 0 };
    static olist o___2 = { 0, 9, "first", 5, 0, 0, 0, 0, 0 };
    static cllist cl___1 = { 0, 8, 0 };
    static cllist cl___2 = { 0, 9, 0 };
    static cilist io___1 = { 0, 8, 0, 0, 0 };
    static cilist io___2 = { 0, 9, 0, 0, 0 };
    static cilist io___3 = { 0, 6, 0, 0, 0 };

    f_open(&o___1);
    f_open(&o___2);
    s_wsle(&io___1);
    do_lio(&c__3, &c__1, (char *)&m, (ftnlen)sizeof(integer));
    e_wsle();
    s_wsle(&io___2);
    do_lio(&c__3, &c__1, (char *)&n, (ftnlen)sizeof(integer));
    e_wsle();
    s_wsle(&io___3);
    do_lio(&c__3, &c__1, (char *)&n, (ftnlen)sizeof(integer));
    e_wsle();
    f_clos(&cl___1);
    f_clos(&cl___2);
    return 0;
}
