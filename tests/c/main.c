/* Tries each call of include/spritapricot.h: what goes where, what is left alone, and what is answered. The very last line is 'N passed, M failed'. */
#include "check.h"
#include <stdio.h>
#include <stdlib.h>

static unsigned long passed, failed;

void count_check(int held, const char *what, const char *test, const char *file, int line)
{
    if (held) {
        passed++;
        return;
    }
    failed++;
    printf("%s:%d: %s: not %s\n", file, line, what, test);
}

static struct bytes read_file(const char *path)
{
    struct bytes b = {malloc(65536), 0};
    FILE *f = fopen(path, "rb");
    if (b.at == NULL || f == NULL) {
        perror(path);
        exit(2);
    }
    b.size = fread(b.at, 1, 65536, f);
    fclose(f);
    return b;
}

struct bytes stored(const char *name)
{
    char path[200];
    snprintf(path, sizeof path, "tests/runs/listing/%s.in", name);
    return read_file(path);
}

struct bytes sample(void) { return read_file("examples/filing"); }

const struct refusal refusals[] = {
    {"refused_1_lone_last_byte", 1, 254},
    {"refused_2_unknown_kind", 2, 0},
    {"refused_3_cell_600", 3, 254},
    {"refused_3_fine_coupon_of_a_borrowing", 3, 254},
    {"refused_4_cell_twice", 4, 14},
    {"refused_4_libor_sheet_twice", 4, 498},
    {"refused_12_both_kinds_of_rates", 12, 254},
    {"refused_16_amendment_twice", 16, 272},
    {"refused_5_coupon", 5, 254},
    {"refused_5_libor_yield", 5, 254},
    {"refused_5_total_of_borrowings", 5, 254},
    {"refused_11_no_tiers", 11, 254},
    {"refused_6_empty", 6, 0},
    {"refused_6_no_rates", 6, 244},
    {"refused_18_no_libor_sheet", 18, 296},
    {"refused_18_before_19_and_7", 18, 310},
    {"refused_19_coupon_600_of_class_500", 19, 682},
    {"refused_19_by_its_last_balance", 19, 678},
    {"refused_19_before_7", 19, 706},
    {"refused_7_months_3_of_row_2", 7, 622},
    {"refused_7_certificates_before_borrowings", 7, 644},
    {"refused_7_months_4_of_the_first_term", 7, 711},
    {"refused_7_months_37_of_the_second_term", 7, 712},
    {"refused_7_months_36_of_the_last_term", 7, 713},
    {"refused_7_of_borrowings_before_8", 7, 711},
    {"refused_8_penalty", 8, 653},
    {"refused_9_no_total", 9, 645},
    {"refused_9_certificates_before_borrowings", 9, 645},
    {"refused_9_no_total_of_borrowings", 9, 715},
    {NULL, 0, 0},
};

void fill(uint64_t *list, size_t count)
{
    for (size_t i = 0; i < count; i++) list[i] = UNTOUCHED;
}

int untouched(const uint64_t *list, size_t count)
{
    for (size_t i = 0; i < count; i++)
        if (list[i] != UNTOUCHED) return 0;
    return 1;
}

int equal(const uint64_t *list, const uint64_t *wanted, size_t count)
{
    for (size_t i = 0; i < count; i++)
        if (list[i] != wanted[i]) return 0;
    return 1;
}

int main(void)
{
    try_value();
    try_cells();
    try_book();
    try_price();
    printf("%lu passed, %lu failed\n", passed, failed);
    return failed != 0;
}
