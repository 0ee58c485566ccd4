/* A small stand-in for the library, for the programs of this folder alone: list-directed output of a record to standard
   output, texts, and whole numbers. It is not the library that the definitions speak of. */
#include <stdio.h>
#include <stdlib.h>
#include <string.h>
#include "f2c.h"

integer f2c__max(integer a, integer b) { return a >= b ? a : b; }
integer f2c__min(integer a, integer b) { return a <= b ? a : b; }
integer f2c__abs(integer a) { return a >= 0 ? a : -a; }

int MAIN__(void);
static char line[200];
static int used;

static void put(const char *text, int size)
{
    if (used + size > 80 && used > 1) {
        printf("%.*s\n", used, line);
        used = 1;
    }
    memcpy(line + used, text, size);
    used += size;
}

integer s_wsle(cilist *list)
{
    (void)list;
    line[0] = ' ';
    used = 1;
    return 0;
}

integer do_lio(integer *kind, integer *count, char *item, ftnlen size)
{
    char text[20];
    for (int i = 0; i < *count; i++, item += size) {
        integer number = 0;
        if (*kind != 9)
            memcpy(&number, item, 4);
        if (*kind == 3)
            put(text, sprintf(text, " %d", number));
        else if (*kind == 8)
            put(number ? " T" : " F", 2);
        else
            put(item, size);
    }
    return 0;
}

integer e_wsle(void)
{
    printf("%.*s\n", used, line);
    return 0;
}

static int byte_at(char *text, ftnlen size, int place)
{
    return place < size ? (unsigned char)text[place] : ' ';
}

VOID s_copy(char *to, char *from, ftnlen to_size, ftnlen from_size)
{
    char *held = malloc(to_size + 1);
    for (int i = 0; i < to_size; i++)
        held[i] = byte_at(from, from_size, i);
    memcpy(to, held, to_size);
    free(held);
}

integer s_cmp(char *left, char *right, ftnlen left_size, ftnlen right_size)
{
    for (int i = 0; i < left_size || i < right_size; i++) {
        int a = byte_at(left, left_size, i), b = byte_at(right, right_size, i);
        if (a != b)
            return a < b ? -1 : 1;
    }
    return 0;
}

VOID s_cat(char *to, address *pieces, integer *sizes, integer *count, ftnlen to_size)
{
    char held[200];
    int size = 0;
    for (int i = 0; i < *count; size += sizes[i], i++)
        memcpy(held + size, pieces[i], sizes[i]);
    s_copy(to, held, to_size, size);
}

integer i_indx(char *text, char *wanted, ftnlen size, ftnlen wanted_size)
{
    for (int i = 0; i + wanted_size <= size; i++)
        if (!memcmp(text + i, wanted, wanted_size))
            return i + 1;
    return 0;
}

integer pow_ii(integer *base, integer *exponent)
{
    integer power = 1;
    if (*exponent < 0 && *base != 1 && *base != -1)
        return 1 / (*base == 0 ? 0 : 2);
    for (int i = *exponent; i != 0; i += i < 0 ? 1 : -1)
        power *= *base;
    return power;
}

integer i_sign(integer *number, integer *sign)
{
    integer size = *number < 0 ? -*number : *number;
    return *sign < 0 ? -size : size;
}

integer i_dim(integer *left, integer *right)
{
    return *left > *right ? *left - *right : 0;
}

integer i_or(integer *left, integer *right)
{
    return *left | *right;
}

integer i_and(integer *left, integer *right)
{
    return *left & *right;
}

integer i_eor(integer *left, integer *right)
{
    return *left ^ *right;
}

integer i_not(integer *number)
{
    return ~*number;
}

integer i_shft(integer *number, integer *count)
{
    unsigned long long bits = (unsigned)*number;
    return (unsigned)(*count < 0 ? bits >> -*count : bits << *count);
}

logical b_test(integer *number, integer *place)
{
    return (unsigned)*number >> *place & 1;
}

integer b_set(integer *number, integer *place)
{
    return *number | (integer)(1u << *place);
}

integer b_clr(integer *number, integer *place)
{
    return *number & ~(integer)(1u << *place);
}

int s_stop(char *text, ftnlen size)
{
    fprintf(stderr, "stop%.*s\n", size, text);
    exit(0);
}

int main(void)
{
    MAIN__();
    return 0;
}
