/* The proved certificates' call beside plain C (cells.c). */
#include "certificates.h"
#include "filings.h"
#include "spritapricot.h"
#include "versions.h"
#include <stdio.h>
#include <stdlib.h>
#include <string.h>

enum { MOST = 1002, PER = 8, CELLS = 56 };

/* A date; some are near the edges of the calendar. */
static void put_date(uint64_t *at, uint64_t first_year, uint64_t years)
{
    static const uint64_t odd_year[6] = {1899, 1900, 2199, 2200, 2000, UINT64_MAX};
    at[0] = below(300) == 0 ? odd_year[below(6)] : first_year + below(years);
    at[1] = below(1500) == 0 ? 13 * below(2) : 1 + below(12);
    at[2] = below(150) == 0 ? 27 + below(6) : 1 + below(28);
}

/* Certificates that are mostly sound: issued in 2010 to 2023, maturing in 2025 to 2033. */
static void put_certificates(uint64_t *list, size_t count, uint64_t most_balance)
{
    for (size_t k = 0; k < count; k++, list += PER) {
        put_date(list, 2010, 14);
        put_date(list + 3, 2025, 9);
        list[6] = below(8) == 0 ? 0 : below(most_balance);
        list[7] = below(1501);
    }
}

/* Both give the same answer, place, count and cells; a refusal leaves the cells. */
static uint64_t same(uint64_t year, uint64_t month, uint64_t day, const uint64_t *list, size_t length)
{
    cells_function *const call[2] = {cells_of, spritapricot_cells};
    uint64_t cells[2][CELLS], count[2], place[2], answer[2];
    for (int v = 0; v < 2; v++) {
        memset(cells[v], 0xa5, sizeof cells[v]);
        count[v] = place[v] = 77;
        answer[v] = call[v](year, month, day, list, length, cells[v], &count[v], &place[v]);
    }
    if (answer[0] != answer[1] || place[0] != place[1] || count[0] != count[1] || memcmp(cells[0], cells[1], sizeof cells[0]) != 0) {
        printf("plain C and the library differ on %zu certificates: %llu at %llu, %llu at %llu\n", length / PER, (unsigned long long)answer[0],
            (unsigned long long)place[0], (unsigned long long)answer[1], (unsigned long long)place[1]);
        exit(1);
    }
    return answer[0];
}

void compare_certificates(int lists)
{
    static uint64_t list[MOST * PER];
    int with[16] = {0};
    for (int i = 0; i < lists; i++) {
        size_t count = below(40) == 0 ? 999 + below(4) : below(50);
        put_certificates(list, count, below(4) == 0 ? 1000000001 : 1000000);
        uint64_t date[3];
        put_date(date, 2024, 1);
        with[same(date[0], date[1], date[2], list, count * PER)]++;
    }
    printf("%d random lists of certificates, the same answers and cells from both\n%d accepted; refused, by number:", lists, with[0]);
    for (int n = 1; n < 16; n++)
        if (with[n] != 0) printf(" %d: %d", n, with[n]);
    printf("\n\n");
}

/* A sound list of 1,000 certificates over all positions. */
static void thousand(uint64_t *list)
{
    for (uint64_t k = 0; k < 1000; k++, list += PER) {
        const uint64_t c[PER] = {2014 + k % 10, 1 + k % 12, 1 + k % 28, 2024 + (k % 12 > 5) + k % 9, 1 + (k + 5) % 12, 1 + k % 31 % 28, 1 + k, k % 1501};
        memcpy(list, c, sizeof c);
    }
}

void time_certificates(double worst, double now(void))
{
    static uint64_t list[1000 * PER];
    cells_function *const call[2] = {cells_of, spritapricot_cells};
    uint64_t cells[CELLS], count, place;
    double least[2] = {1e30, 1e30};
    thousand(list);
    if (same(2024, 3, 31, list, 1000 * PER) != 0) exit(1);
    for (int r = 0; r < 400; r++)
        for (int v = 0; v < 2; v++) {
            double start = now();
            call[v](2024, 3, 31, list, 1000 * PER, cells, &count, &place);
            double took = now() - start;
            if (took < least[v]) least[v] = took;
        }
    printf("\n1,000 certificates, ns: plain C %.0f, proved %.0f, which is %.2f of plain C and %.3f of the worst filing\n", least[0], least[1], least[1] / least[0],
        least[1] / worst);
}
