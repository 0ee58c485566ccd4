#include "f2c.h"

static integer c__1 = 1;
static integer c__3 = 3;

int MAIN__(void)
{
    extern integer s_wsle(cilist *);
    extern integer do_lio(integer *, integer *, char *, ftnlen);
    extern integer e_wsle(void);
    integer a[3];
    integer i__1;
    static cilist io___1 = { 0, 6, 0, 0, 0 };

    a[0] = 5;
    *(a + 2) = 300;
    a[1] = *(unsigned char *)&a[2] + *(a + 2 - 2);
    *((unsigned char *)a + 1) = 1;
    i__1 = a == a + 1 - 1;
    s_wsle(&io___1);
    do_lio(&c__3, &c__1, (char *)&a[0], (ftnlen)sizeof(integer));
    do_lio(&c__3, &c__1, (char *)&a[1], (ftnlen)sizeof(integer));
    do_lio(&c__3, &c__1, (char *)&i__1, (ftnlen)sizeof(integer));
    e_wsle();
    return 0;
}
