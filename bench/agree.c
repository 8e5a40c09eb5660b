/* Compares versions of the valuation with each other. */
#include "agree.h"
#include <stdio.h>
#include <stdlib.h>
#include <string.h>

const struct lengths full = {NUMBERS, BORROWED_NUMBERS};

void value_into(value_function *function, struct input f, struct lengths lent, struct answer *to)
{
    memset(to, 0xa5, sizeof *to);
    to->number = function(f.bytes, f.size, to->numbers, lent.numbers, to->borrowings, lent.borrowings, &to->place);
}

uint64_t agree(const struct version *version, int versions, struct input f, struct lengths lent)
{
    static struct answer first, other;
    value_into(version[0].value, f, lent, &first);
    for (int v = 1; v < versions; v++) {
        value_into(version[v].value, f, lent, &other);
        if (memcmp(&other, &first, sizeof first) != 0) {
            printf("%s and %s differ on a %s filing of %zu bytes: %llu at %llu, %llu at %llu\n", version[v].name, version[0].name, f.name, f.size,
                (unsigned long long)other.number, (unsigned long long)other.place, (unsigned long long)first.number, (unsigned long long)first.place);
            exit(1);
        }
    }
    return first.number;
}

/* One in 40 lists is of any length up to the whole, most of these about the least that will do. */
static size_t any_length(size_t whole)
{
    if (below(40) != 0) return whole;
    return below(3) == 0 ? below(whole + 1) : whole - below(4);
}

void compare_random(const struct version *version, int versions, int filings)
{
    enum { MOST = 19 };
    int with[MOST + 1] = {0};
    for (int i = 0; i < filings; i++) {
        struct input f = any();
        struct lengths lent = {any_length(NUMBERS), any_length(BORROWED_NUMBERS)};
        with[agree(version, versions, f, lent)]++;
        free(f.bytes);
    }
    printf("%d random filings, the same answers and numbers from all versions\n%d accepted; refused, by number:", filings, with[0]);
    for (int n = 1; n <= MOST; n++)
        if (with[n] != 0) printf(" %d: %d", n, with[n]);
    printf("\n\n");
}
