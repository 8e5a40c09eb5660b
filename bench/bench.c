/*
 * The proved library beside the plain C versions. Without arguments: checks that all give the same answers and numbers on every filing used, and
 * prints times. `bench once VERSION FILING` runs one valuation, for counting instructions; VERSION 0 is a, 1 b, 2 c, 3 d, 4 e, 5 the library.
 * `bench random COUNT SEED` only compares all versions on random filings, and the calls of certificates and books on random lists.
 */
#define _POSIX_C_SOURCE 200809L
#include "agree.h"
#include "book.h"
#include "certificates.h"
#include "filings.h"
#include "spritapricot.h"
#include "stack.h"
#include <stdio.h>
#include <stdlib.h>
#include <string.h>
#include <time.h>

enum { B = 1, PROVED = PLAIN, VERSIONS };

static const struct version version[VERSIONS] = {{"a recomputed", value_recomputed}, {"b tabled", value_tabled}, {"c multiplied", value_multiplied},
    {"d in runs", value_in_runs}, {"e in step", value_in_step}, {"proved", spritapricot_value}};

/* The filings that are timed. */
enum {
    WORST, WORST_TIERS, WORST_PATH, WORST_FINE, WORST_AMENDED, WORST_BORROWED, WORST_ALL, TYPICAL, TYPICAL_ALL, TYPICAL_BORROWED, FULLEST, FULLEST_BORROWED,
    ONE_BALANCE, NO_BALANCES, ONE_BORROWING, NO_BORROWINGS, FILINGS
};
static const char *const filing_name[FILINGS] = {
    "worst", "worst-tiers", "worst-path", "worst-fine", "worst-amended", "worst-borrowed", "worst-all", "typical", "typical-all", "typical-borrowed", "fullest",
    "fullest-borrowed", "one-balance", "no-balances", "one-borrowing", "no-borrowings"};

/* What is lent to a call that is timed. */
static uint64_t numbers[NUMBERS], borrowings[BORROWED_NUMBERS];

static uint64_t call(int v, struct input f)
{
    uint64_t place;
    return version[v].value(f.bytes, f.size, numbers, NUMBERS, borrowings, BORROWED_NUMBERS, &place);
}

/* The library must know every kind of record that the plain versions know. */
static void same_kinds(void)
{
    for (int i = WORST_TIERS; i <= WORST_BORROWED; i++) {
        struct input f = named(filing_name[i]);
        if (call(PROVED, f) == 2) {
            printf("the library does not know a kind of record in the filing %s\n", f.name);
            exit(1);
        }
        free(f.bytes);
    }
}

static double now(void)
{
    struct timespec t;
    clock_gettime(CLOCK_MONOTONIC, &t);
    return 1e9 * (double)t.tv_sec + (double)t.tv_nsec;
}

static double time_of(int v, struct input f, int calls)
{
    double start = now();
    for (int i = 0; i < calls; i++) call(v, f);
    return (now() - start) / calls;
}

/*
 * The least time of one call, in nanoseconds, by filing and version: over rounds of few calls, so that some is not interrupted, with all filings and
 * versions in each, so that all meet the same machine.
 */
static void measure(const struct input *f, int filings, int rounds, double least[][VERSIONS])
{
    for (int i = 0; i < filings; i++)
        for (int v = 0; v < VERSIONS; v++) least[i][v] = 1e30;
    for (int r = 0; r < rounds; r++)
        for (int i = 0; i < filings; i++)
            for (int v = 0; v < VERSIONS; v++) {
                int calls = r == 0 ? 3 : 1 + (int)(20000 / least[i][v]);
                double took = time_of(v, f[i], calls);
                if (took < least[i][v]) least[i][v] = took;
            }
}

static void compare(double least[FILINGS][VERSIONS])
{
    struct input f[FILINGS];
    for (int i = 0; i < FILINGS; i++) {
        f[i] = named(filing_name[i]);
        if (agree(version, VERSIONS, f[i], full) != 0) exit(1);
    }
    measure(f, FILINGS, 150, least);
    printf("%-18s", "ns a filing");
    for (int v = 0; v < VERSIONS; v++) printf("%14s", version[v].name);
    printf("%10s%10s%10s%10s%10s\n", "proved/a", "proved/b", "proved/c", "proved/d", "proved/e");
    for (int i = 0; i < FILINGS; i++) {
        printf("%-18s", f[i].name);
        for (int v = 0; v < VERSIONS; v++) printf("%14.0f", least[i][v]);
        for (int v = 0; v < PLAIN; v++) printf("%10.3f%s", least[i][PROVED] / least[i][v], v < PLAIN - 1 ? "" : "\n");
        free(f[i].bytes);
    }
}

/*
 * By difference between filings of the same records: with all 36 sub-balances 6,636 month steps, with the one of 120 months 840 of them and the same
 * factors, without balances only reading, the shares and the list. Version a has no factors apart from its months.
 */
static void take_apart(double least[FILINGS][VERSIONS])
{
    enum { STEPS = 6636, STEPS_OF_ONE = 840, FACTOR_STEPS = 101640 };
    printf("\n%-16s%14s%14s%14s%14s%12s%12s%12s\n", "ns apart", "reading", "all factors", "a factor step", "month: worst", "-tiers", "-path", "-all");
    for (int v = B; v < VERSIONS; v++) {
        double step = (least[WORST][v] - least[ONE_BALANCE][v]) / (STEPS - STEPS_OF_ONE);
        double factors = least[ONE_BALANCE][v] - least[NO_BALANCES][v] - STEPS_OF_ONE * step, rest = factors + least[NO_BALANCES][v];
        printf("%-16s%14.0f%14.0f%14.3f%14.2f%12.2f%12.2f%12.2f\n", version[v].name, least[NO_BALANCES][v], factors, factors / FACTOR_STEPS, step,
            (least[WORST_TIERS][v] - rest) / STEPS, (least[WORST_PATH][v] - rest) / STEPS, (least[WORST_ALL][v] - rest) / STEPS);
    }
    printf("proved, of the worst filing: reading with shares %.3f\n", least[NO_BALANCES][PROVED] / least[WORST][PROVED]);
}

/*
 * The same of borrowings: all 24 of the worst filing have 8,904 month steps, the one of 120 months 840 of them and the same factors, and without balances
 * there is only the reading of their cells and sheet.
 */
static void take_borrowings_apart(double least[FILINGS][VERSIONS])
{
    enum { STEPS = 8904, STEPS_OF_ONE = 840, FACTOR_STEPS = 101640 };
    printf("\n%-16s%14s%14s%14s%14s%14s\n", "ns, borrowings", "all of them", "reading", "all factors", "a factor step", "a month step");
    for (int v = B; v < VERSIONS; v++) {
        double all = least[WORST_BORROWED][v] - least[WORST][v], reading = least[NO_BORROWINGS][v] - least[NO_BALANCES][v];
        double one = least[ONE_BORROWING][v] - least[NO_BORROWINGS][v], step = (all - reading - one) / (STEPS - STEPS_OF_ONE);
        double factors = one - STEPS_OF_ONE * step;
        printf("%-16s%14.0f%14.0f%14.0f%14.3f%14.2f\n", version[v].name, all, reading, factors, factors / FACTOR_STEPS, step);
    }
}

/* A book with one change, called as a valuation is. */
static uint64_t book_of_one(const uint8_t *filing, size_t size, uint64_t *totals, size_t length, uint64_t *unused, size_t unused_length, uint64_t *place)
{
    static const uint64_t change[6] = {0, 32, 1000, 5000, 120, 300};
    uint64_t changed;
    (void)length, (void)unused, (void)unused_length;
    return spritapricot_book(filing, size, change, 6, totals, place, &changed);
}

static void stacks(void)
{
    struct input f = named("worst-all-borrowed");
    printf("\nstack of one call, bytes:");
    for (int v = 0; v < VERSIONS; v++) printf(" %s %zu,", version[v].name, stack_of(version[v].value, f));
    printf(" a book %zu\n", stack_of(book_of_one, f));
    free(f.bytes);
}

static void hostile_times(struct input f, size_t read, int rounds)
{
    double least[1][VERSIONS];
    uint64_t answer = agree(version, VERSIONS, f, full);
    measure(&f, 1, rounds, least);
    printf("%-34s%10zu%6llu%10zu%12.0f%12.0f%10.2f\n", f.name, f.size, (unsigned long long)answer, read, least[0][B], least[0][PROVED],
        least[0][PROVED] / (double)read);
    free(f.bytes);
}

static void refused_inputs(void)
{
    static const size_t size[3] = {4096, 65536, 16777216};
    struct input f = named("fullest-borrowed");
    printf("\n%-34s%10s%6s%10s%12s%12s%10s\n", "hostile inputs, ns a call", "bytes", "no.", "read", version[B].name, version[PROVED].name, "ns/byte");
    for (int i = 0; i < 3; i++) {
        hostile_times(hostile("early: zero length", size[i], 0, 0), 2, 40);
        hostile_times(hostile("early: unknown kind", size[i], 0, 3), 4, 40);
        hostile_times(hostile("late: fullest filing, then zeros", size[i], 1, 0), f.size + 2, 40);
        hostile_times(hostile("late: fullest filing, then 0xff", size[i], 1, 255), f.size + 2, 40);
    }
    free(f.bytes);
}

static void amended_inputs(void)
{
    static const char *const name[5] = {"amendments: cell after cell", "amendments: cells in turn", "amendments: the last two alike",
        "amendments: numbers that fall", "amendments: falling, spread"};
    static const size_t size[3] = {65536, 1048576, 16777216};
    for (int shape = ONE_CELL; shape <= FALLING_SPREAD; shape++)
        for (int i = 0; i < 3; i++) {
            struct input f = amendments(name[shape], size[i], (enum shape)shape);
            hostile_times(f, f.size, 5);
        }
}

static void once(int which, const char *name)
{
    struct input f = named(name);
    call(which, f);
    free(f.bytes);
}

int main(int argc, char **argv)
{
    double least[FILINGS][VERSIONS];
    if (argc == 4 && strcmp(argv[1], "once") == 0) {
        once(atoi(argv[2]), argv[3]);
        return 0;
    }
    same_kinds();
    if (argc == 4 && strcmp(argv[1], "random") == 0) {
        start_random(strtoull(argv[3], NULL, 10));
        compare_random(version, VERSIONS, atoi(argv[2]));
        compare_certificates(atoi(argv[2]));
        compare_books(atoi(argv[2]));
        return 0;
    }
    compare_random(version, VERSIONS, 4000);
    compare_certificates(4000);
    compare_books(1000);
    compare(least);
    take_apart(least);
    take_borrowings_apart(least);
    stacks();
    refused_inputs();
    amended_inputs();
    time_certificates(least[WORST][PROVED], now);
    time_book(least[WORST][PROVED], now);
    return 0;
}
