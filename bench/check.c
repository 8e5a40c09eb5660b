/*
 * Values the filing on standard input with every plain C version and prints, by its argument: `numbers` (as without one) the 568 numbers, one a line;
 * `borrowings` the 374 of its borrowings; `listing` the seven lines of the listing; or `refused NUMBER PLACE`; for cases with known answers.
 * `check random COUNT SEED` compares the plain versions on random filings. Needs nothing of the library.
 */
#include "agree.h"
#include <stdio.h>
#include <stdlib.h>
#include <string.h>

static const struct version version[PLAIN] = {
    {"a", value_recomputed}, {"b", value_tabled}, {"c", value_multiplied}, {"d", value_in_runs}, {"e", value_in_step}};

static void print_numbers(const uint64_t *list, int count)
{
    for (int i = 0; i < count; i++) printf("%llu\n", (unsigned long long)list[i]);
}

static void print_listing(const uint64_t *total)
{
    for (int s = 0; s < 7; s++, total += 4)
        printf("%d %llu %llu %llu %llu\n", 100 * s - 300, (unsigned long long)total[0], (unsigned long long)total[1], (unsigned long long)total[2],
            (unsigned long long)total[3]);
}

static void print(const char *what, struct input f)
{
    static struct answer answer;
    agree(version, PLAIN, f, full);
    value_into(version[0].value, f, full, &answer);
    if (answer.number != 0)
        printf("refused %llu %llu\n", (unsigned long long)answer.number, (unsigned long long)answer.place);
    else if (strcmp(what, "listing") == 0)
        print_listing(answer.numbers + 540);
    else if (strcmp(what, "borrowings") == 0)
        print_numbers(answer.borrowings, 374);
    else
        print_numbers(answer.numbers, 568);
}

int main(int argc, char **argv)
{
    static uint8_t bytes[1 << 20];
    if (argc == 4 && strcmp(argv[1], "random") == 0) {
        start_random(strtoull(argv[3], NULL, 10));
        compare_random(version, PLAIN, atoi(argv[2]));
        return 0;
    }
    struct input f = {"given", bytes, fread(bytes, 1, sizeof bytes, stdin)};
    print(argc > 1 ? argv[1] : "numbers", f);
    return 0;
}
