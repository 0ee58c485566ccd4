/* The names of the include line, as a C compiler wants them. */

typedef int integer;
typedef int logical;
typedef int ftnlen;
typedef int ftnint;
typedef int flag;
typedef char *address;
#define VOID void
#define TRUE_ 1
#define FALSE_ 0

typedef struct { flag cierr; ftnint ciunit; flag ciend; char *cifmt; ftnint cirec; } cilist;
typedef struct { flag icierr; char *iciunit; flag iciend; char *icifmt; ftnint icirlen; ftnint icirnum; } icilist;
typedef struct { flag oerr; ftnint ounit; char *ofnm; ftnlen ofnmlen; char *osta; char *oacc; char *ofm; ftnint orl; char *oblnk; } olist;
typedef struct { flag cerr; ftnint cunit; char *csta; } cllist;
typedef struct { flag aerr; ftnint aunit; } alist;

typedef int (*S_fp)();
typedef integer (*I_fp)();
typedef logical (*L_fp)();
typedef int (*U_fp)();

/* The greater and the less of two, and the magnitude: each operand is valued once, however deep they stand in each other.
   They are functions of the library. */
extern integer f2c__max(integer a, integer b);
extern integer f2c__min(integer a, integer b);
extern integer f2c__abs(integer a);
#define max(a, b) f2c__max(a, b)
#define min(a, b) f2c__min(a, b)
#define abs(a) f2c__abs(a)
