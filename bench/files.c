/* A small stand-in for the library, for the programs of bench/runner alone: list-directed integers on one file, and on
   standard output. It is not the library that the definitions speak of. */
#include <stdio.h>
#include "f2c.h"

int MAIN__(void);
static FILE *opened;
static FILE *target;
static char line[200];
static int place;
static int reads;

integer f_open(olist *list)
{
    char name[200];
    snprintf(name, sizeof name, "%.*s", list->ofnmlen, list->ofnm);
    opened = fopen(name, "r+");
    if (!opened)
        opened = fopen(name, "w+");
    return opened ? 0 : 7;
}

integer f_clos(cllist *list)
{
    (void)list;
    fclose(opened);
    return 0;
}

integer s_wsle(cilist *list)
{
    target = list->ciunit == 6 ? stdout : opened;
    reads = 0;
    place = sprintf(line, " ");
    return 0;
}

integer s_rsle(cilist *list)
{
    (void)list;
    reads = 1;
    place = 0;
    return fgets(line, sizeof line, opened) ? 0 : -1;
}

integer do_lio(integer *kind, integer *count, char *item, ftnlen size)
{
    int used = 0;
    (void)kind;
    for (int i = 0; i < *count; i++, item += size) {
        if (!reads)
            used = sprintf(line + place, " %d", *(integer *)item);
        else if (sscanf(line + place, "%d%n", (integer *)item, &used) != 1)
            return 1;
        place += used;
    }
    return 0;
}

integer e_wsle(void)
{
    fprintf(target, "%s\n", line);
    return 0;
}

integer e_rsle(void)
{
    return 0;
}

int main(void)
{
    MAIN__();
    return 0;
}
