#include "f2c.h"

static integer c__1 = 1;
static integer c__3 = 3;

int MAIN__(void)
{
    extern integer s_wsle(cilist *);
    extern integer do_lio(integer *, integer *, char *, ftnlen);
    extern integer e_wsle(void);
    extern integer s_cmp(char *, char *, ftnlen, ftnlen);
    extern integer i_indx(char *, char *, ftnlen, ftnlen);
    integer i__1;
    integer i__2;
    integer i__3;
    static cilist io___1 = { 0, 6, 0, 0, 0 };

    i__1 = s_cmp("AB", "AB  ", (ftnlen)2, (ftnlen)4);
    i__2 = s_cmp("B", "AZ", (ftnlen)1, (ftnlen)2);
    i__3 = i_indx("banana", "na", (ftnlen)6, (ftnlen)2);
    s_wsle(&io___1);
    do_lio(&c__3, &c__1, (char *)&i__1, (ftnlen)sizeof(integer));
    do_lio(&c__3, &c__1, (char *)&i__2, (ftnlen)sizeof(integer));
    do_lio(&c__3, &c__1, (char *)&i__3, (ftnlen)sizeof(integer));
    e_wsle();
    return 0;
}
