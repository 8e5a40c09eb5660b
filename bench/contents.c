/* Tests what a filing says, splits its nine balances into thirty-six, and finds its borrowings. */
#include "read.h"

static const int balance_cell[9] = {601, 602, 603, 615, 616, 617, 631, 632, 641};
static const int coupon_cell[9] = {605, 606, 607, 619, 620, 621, 634, 635, 643};
static const int months_cell[9] = {608, 609, 610, 622, 623, 624, 636, 637, 644};
static const int column[9] = {0, 1, 2, 0, 1, 2, 1, 2, 2};
static const uint64_t least_months[9] = {1, 1, 1, 4, 4, 4, 13, 13, 37};
static const uint64_t most_months[9] = {3, 3, 3, 12, 12, 12, 36, 36, 120};

/* Of the borrowings: by coupon class, in hundredths, and by term. Class i has balances from cell 675 + 4 i on and its coupon in 678 + 4 i. */
static const uint64_t least_coupon[8] = {0, 500, 600, 700, 800, 900, 1000, 1100};
static const uint64_t most_coupon[8] = {499, 599, 699, 799, 899, 999, 1099, 1500};
static const uint64_t least_term[3] = {1, 4, 37};
static const uint64_t most_term[3] = {3, 36, 120};

static uint64_t cell(const struct contents *k, int n) { return k->cell[n - FIRST_CELL]; }

/* 18, at the input's length, which is the place on entry, and 19. */
static int check_borrowings(const struct contents *k, int libor_read, uint64_t *place)
{
    if (!libor_read) return 18;
    for (int i = 0; i < 8; i++) {
        const uint64_t *b = &k->cell[675 + 4 * i - FIRST_CELL], c = b[3];
        *place = (uint64_t)(678 + 4 * i);
        if ((b[0] | b[1] | b[2]) != 0 && (c < least_coupon[i] || c > most_coupon[i])) return 19;
    }
    return 0;
}

/* 7, of certificates and of the three terms of borrowings: sums of balances by column and by term. */
static int check_months(const struct contents *k, uint64_t sum[3], uint64_t term[3], uint64_t *place)
{
    for (int i = 0; i < 9; i++) {
        uint64_t b = cell(k, balance_cell[i]), t = cell(k, months_cell[i]);
        *place = (uint64_t)months_cell[i];
        if (b != 0 && (t < least_months[i] || t > most_months[i])) return 7;
        sum[column[i]] += b;
    }
    for (int j = 0; j < 3; j++) {
        uint64_t t = cell(k, 711 + j);
        *place = (uint64_t)(711 + j);
        if (term[j] != 0 && (t < least_term[j] || t > most_term[j])) return 7;
    }
    return 0;
}

int check_contents(const struct contents *k, int libor_read, uint64_t *place)
{
    uint64_t sum[3] = {0}, term[3] = {0};
    for (int class = 675; class < 707; class += 4)
        for (int j = 0; j < 3; j++) term[j] += cell(k, class + j);
    uint64_t borrowed = term[0] + term[1] + term[2];
    int refusal = borrowed != 0 ? check_borrowings(k, libor_read, place) : 0;
    if (refusal == 0) refusal = check_months(k, sum, term, place);
    if (refusal != 0) return refusal;
    for (int i = 0; i < 6; i++) {
        *place = (uint64_t)(650 + i);
        if (cell(k, 650 + i) > sum[i % 3]) return 8;
    }
    *place = 645;
    if (cell(k, 645) != sum[0] + sum[1] + sum[2]) return 9;
    *place = 715;
    if (cell(k, 715) != borrowed) return 9;
    *place = 0;
    return 0;
}

void split(const struct contents *k, struct place places[36])
{
    uint64_t sum[3] = {0}, before[3] = {0};
    for (int i = 0; i < 9; i++) sum[column[i]] += cell(k, balance_cell[i]);
    for (int i = 0; i < 9; i++) {
        int j = column[i];
        uint64_t b = cell(k, balance_cell[i]), brokered = cell(k, 650 + j), penalty = cell(k, 653 + j);
        uint64_t held = 0, retail_penalty = 0, held_penalty = 0, first = before[j], last = first + b;
        if (sum[j] != 0) {
            held = brokered * last / sum[j] - brokered * first / sum[j];
            retail_penalty = penalty * (last - held) / sum[j] - penalty * first / sum[j];
            held_penalty = penalty * last / sum[j] - penalty * (last - held) / sum[j];
        }
        uint64_t share[4] = {retail_penalty, b - held - retail_penalty, held_penalty, held - held_penalty};
        for (int l = 0; l < 4; l++)
            places[4 * i + l] = (struct place){
                share[l], cell(k, coupon_cell[i]), l % 2 == 0 ? cell(k, 656 + j) : 0, (int)cell(k, months_cell[i]), j};
        before[j] = last;
    }
}

int borrowed(const struct contents *k, struct borrowing to[BORROWINGS])
{
    int longest = 0;
    if (cell(k, 715) == 0) return 0;
    for (int class = 675; class < 707; class += 4)
        for (int j = 0; j < 3; j++) {
            *to = (struct borrowing){cell(k, class + j), cell(k, class + 3), (int)cell(k, 711 + j)};
            if (to->balance != 0 && to->months > longest) longest = to->months;
            to++;
        }
    return longest;
}
