/* The proved book's call beside plain C (fast.c). */
#include "book.h"
#include "filings.h"
#include "spritapricot.h"
#include "versions.h"
#include <stdio.h>
#include <stdlib.h>
#include <string.h>

enum { BOOKS = 3, MOST = 64, PER = 6, SHOWN = 29 };

static book_function *const call[BOOKS] = {book_multiplied, book_in_runs, spritapricot_book};

/* A change that is mostly taken. */
static void put_change(uint64_t *c)
{
    static const uint64_t first[9] = {1, 1, 1, 4, 4, 4, 13, 13, 37}, last[9] = {3, 3, 3, 12, 12, 12, 36, 36, 120};
    uint64_t i = below(36), p = i / 4;
    c[0] = below(300) == 0 ? 2 + below(3) : 0;
    c[1] = below(400) == 0 ? 36 + below(3) : i;
    c[2] = 1 + below(999999999 + (below(200) == 0));
    c[3] = below(15001 + (below(100) == 0));
    c[4] = below(200) == 0 ? last[p] + 1 : first[p] + below(last[p] - first[p] + 1);
    c[5] = i % 2 == 0 ? below(3601) : below(300) == 0;
    if (below(5) != 0) return;
    /* a clear, rarely with a number besides; rarely a balance of 0 that is set */
    c[0] = below(100) != 0;
    memset(c + 2, 0, 4 * sizeof *c);
    if (below(100) == 0) c[2 + below(4)] = 1;
}

/* All give the same answer, place, count of changes and totals; a refusal leaves the totals. */
static uint64_t same(struct input f, const uint64_t *changes, size_t count)
{
    uint64_t shown[BOOKS][SHOWN], place[BOOKS], changed[BOOKS], answer[BOOKS];
    for (int v = 0; v < BOOKS; v++) {
        memset(shown[v], 0xa5, sizeof shown[v]);
        place[v] = changed[v] = 77;
        answer[v] = call[v](f.bytes, f.size, changes, count * PER, shown[v], &place[v], &changed[v]);
        if (answer[v] != answer[0] || place[v] != place[0] || changed[v] != changed[0] || memcmp(shown[v], shown[0], sizeof shown[0]) != 0) {
            printf("books differ after %zu changes: %llu at %llu, %llu at %llu\n", count, (unsigned long long)answer[v], (unsigned long long)place[v],
                (unsigned long long)answer[0], (unsigned long long)place[0]);
            exit(1);
        }
    }
    return answer[0];
}

void compare_books(int books)
{
    uint64_t changes[MOST * PER];
    enum { MOST_ANSWER = 19 };
    int with[MOST_ANSWER + 1] = {0};
    for (int i = 0; i < books; i++) {
        struct input f = any();
        size_t count = below(MOST + 1);
        for (size_t k = 0; k < count; k++) put_change(changes + PER * k);
        with[same(f, changes, count)]++;
        free(f.bytes);
    }
    printf("%d random books, the same answers and totals from all\n%d accepted; refused, by number:", books, with[0]);
    for (int n = 1; n <= MOST_ANSWER; n++)
        if (with[n] != 0) printf(" %d: %d", n, with[n]);
    printf("\n\n");
}

/* By difference between 64 changes and none: the opening does not count. */
void time_book(double worst, double now(void))
{
    struct input f = named("worst");
    uint64_t changes[MOST * PER], shown[SHOWN], place, changed;
    double least[BOOKS][2];
    for (uint64_t k = 0; k < MOST; k++) {
        const uint64_t c[PER] = {0, 32 + k % 4, 1000 + k, 5000 + k, 120, k % 2 == 0 ? 300 : 0};
        memcpy(changes + PER * k, c, sizeof c);
    }
    if (same(f, changes, MOST) != 0) exit(1);
    for (int v = 0; v < BOOKS; v++) least[v][0] = least[v][1] = 1e30;
    for (int r = 0; r < 200; r++)
        for (int v = 0; v < BOOKS; v++)
            for (int full = 0; full < 2; full++) {
                double start = now();
                call[v](f.bytes, f.size, changes, full ? MOST * PER : 0, shown, &place, &changed);
                double took = now() - start;
                if (took < least[v][full]) least[v][full] = took;
            }
    double set[BOOKS];
    for (int v = 0; v < BOOKS; v++) set[v] = (least[v][1] - least[v][0]) / MOST;
    printf("\na place of 120 months set in a book, ns: c %.0f, d %.0f, proved %.0f, which is %.2f of c, %.2f of d and %.3f of the worst filing\n", set[0], set[1], set[2],
        set[2] / set[0], set[2] / set[1], set[2] / worst);
    free(f.bytes);
}
