#!/usr/bin/env python3
"""Makes the filings of the stored runs (tests/runs): the inputs of `listing`, and the files that `book` opens. What is to be printed of them stands beside
them in NAME.out, and no program writes it."""
import pathlib
import sys

sys.dont_write_bytecode = True

from records import (
    LISTING, SHEETS, amended, amendment_record, cell, cells, filing, fine, fine_cells, flat, libor, path, path_filing, rates, record, tiers, withdrawn, yields,
)

FOLDER = pathlib.Path(__file__).parent / "runs"
RETAIL = {601: 1000, 608: 1, 645: 1000}
SIX = {601: 1000, 605: 600, 608: 1, 645: 1000}
BROKERED = {601: 1000, 605: 600, 608: 2, 645: 1000, 650: 1000}
LONG = {631: 1000, 636: 13, 645: 1000, 651: 1000}
NO_RATES = flat(0)
NO_LIBOR = libor(flat(0))


def with_libor(values):
    """A filing of borrowings and perhaps certificates, its LIBOR sheet last, all rates 0."""
    return filing(values) + NO_LIBOR


REFUSED = {
    "1_past_the_end": b"\x0c\0",
    "1_lone_last_byte": SHEETS + b"\0",
    "1_length_1": cell(601, 0) + b"\x01\0\x09\0" + SHEETS,
    "1_half_a_kind": b"\x02\0\x09",
    "2_unknown_kind": b"\x02\0\x09\0",
    "2_length_of_no_kind": SHEETS + record(1, bytes(11)),
    "2_tiers_without_a_count": SHEETS + record(4, b""),
    "3_cell_600": SHEETS + cell(600, 0),
    "3_fine_coupon_of_a_balance": SHEETS + fine(601, 1),
    "3_fine_coupon_of_a_borrowing": SHEETS + fine(678, 1),
    "3_cell_707": SHEETS + cell(707, 0),
    "4_cell_twice": cell(601, 0) + cell(601, 0) + SHEETS,
    "4_cell_by_kinds_1_and_6": SHEETS + cell(605, 0) + fine(605, 0),
    "4_sheet_twice": SHEETS + yields(flat(0)),
    "4_libor_sheet_twice": SHEETS + NO_LIBOR + NO_LIBOR,
    "12_both_kinds_of_rates": SHEETS + path(NO_RATES, NO_RATES, NO_RATES),
    "16_amendment_twice": SHEETS + amended(601, 1, 0) + amended(601, 1, 0),
    "5_coupon": SHEETS + cell(605, 1_501),
    "5_yield": yields(flat(2_501)),
    "5_libor_yield": SHEETS + libor(flat(2_501)),
    "5_total_of_borrowings": SHEETS + cell(715, 23_999_999_977),
    "5_amendment_0": SHEETS + amended(601, 0, 0),
    "5_withdrawn_with_a_value": SHEETS + amendment_record(601, 1, 1, 1),
    "11_no_tiers": SHEETS + tiers(),
    "11_first_edge_1": SHEETS + tiers((1, 40)),
    "6_empty": b"",
    "6_no_yields": rates((0, 0, 0)),
    "6_no_rates": yields(flat(0)),
    "18_no_libor_sheet": filing({675: 10, 711: 1, 715: 10}),
    "18_before_19_and_7": filing({679: 10, 682: 600, 711: 4, 715: 10}),
    "19_coupon_600_of_class_500": with_libor({679: 10, 682: 600, 711: 1, 715: 10}),
    "19_coupon_499_of_class_500": with_libor({679: 10, 682: 499, 711: 1, 715: 10}),
    "19_by_its_last_balance": with_libor({677: 10, 678: 500, 713: 37, 715: 10}),
    "19_before_7": with_libor({615: 10, 622: 3, 703: 10, 706: 1_099, 711: 4, 715: 10}),
    "7_months_3_of_row_2": filing({615: 10, 622: 3}),
    "7_months_13_of_row_2": filing({615: 10, 622: 13}),
    "7_months_0_of_a_borrowing": with_libor({675: 10, 715: 10}),
    "7_months_4_of_the_first_term": with_libor({675: 10, 711: 4, 715: 10}),
    "7_months_37_of_the_second_term": with_libor({676: 10, 712: 37, 715: 10}),
    "7_months_36_of_the_last_term": with_libor({677: 10, 713: 36, 715: 10}),
    "7_certificates_before_borrowings": with_libor({641: 10, 644: 36, 675: 10, 715: 10}),
    "7_of_borrowings_before_8": with_libor({601: 10, 608: 1, 650: 11, 675: 10, 715: 10}),
    "8_brokered": filing({601: 10, 608: 1, 650: 11}),
    "8_penalty": filing({601: 10, 608: 1, 653: 11}),
    "9_no_total": filing({601: 10, 608: 1}),
    "9_no_total_of_borrowings": with_libor({675: 10, 711: 1}),
    "9_total_without_borrowings": SHEETS + cell(715, 1),
    "9_certificates_before_borrowings": with_libor({601: 10, 608: 1, 675: 10, 711: 1}),
    "9_months_4_of_row_2": filing({615: 10, 622: 4}),
    "9_months_12_of_row_2": filing({615: 10, 622: 12}),
}

LISTED = {
    "sample": filing(LISTING),
    "nothing_but_sheets": SHEETS,
    "coupon_at_its_limit": SHEETS + cell(605, 1_500),
    "retail_one_month": filing(RETAIL),
    "one_month_at_6_percent": filing(SIX, flat(600)),
    "one_month_at_6000_thousandths": fine_cells(SIX | {605: 6_000}) + yields(flat(600)) + rates((0, 0, 0)),
    "brokered_two_months": filing(BROKERED, retail=(700, 0, 0)),
    "brokered_two_months_rates_by_month": path_filing(BROKERED, flat(0), flat(700), NO_RATES, NO_RATES),
    "second_month_rate_higher": path_filing(BROKERED | {608: 3}, flat(0), [500, 700] + flat(0)[2:], NO_RATES, NO_RATES),
    "brokered_thirteen_months": filing(LONG),
    "own_tiers_nothing_withdrawn": filing(RETAIL | {608: 2}) + tiers((0, 0)),
    "brokered_withdrawn": filing(LISTING) + withdrawn(650, 1),
    "libor_sheet_alone": SHEETS + NO_LIBOR,
    "borrowing_one_month": with_libor({675: 1_000, 711: 1, 715: 1_000}),
    "borrowing_at_6_percent": cells({683: 1_000, 686: 600, 711: 1, 715: 1_000}) + SHEETS + libor(flat(600)),
    "borrowing_37_months": with_libor({705: 1_000, 706: 1_100, 713: 37, 715: 1_000}),
    "borrowing_beside_the_sample": with_libor(LISTING | {675: 1_000, 711: 1, 715: 1_000}),
    "coupons_and_months_without_borrowings": SHEETS + cells({678: 1_500, 706: 0, 711: 120, 713: 0}),
    "borrowing_amended": with_libor({675: 1_000, 678: 600, 711: 1, 715: 1_000}) + amended(678, 2, 0) + withdrawn(678, 1),
    "borrowing_withdrawn": filing({675: 1_000, 678: 600, 715: 1_000}) + withdrawn(675, 1) + withdrawn(715, 1),
    "brokered_withdrawn_and_given_back": withdrawn(650, 1) + amended(650, 2, 1_000) + filing(LISTING),
}

OPENED = {f"refused_{name}": REFUSED[name] for name in ("1_lone_last_byte", "2_unknown_kind", "3_cell_600", "4_sheet_twice", "12_both_kinds_of_rates",
    "16_amendment_twice", "5_coupon", "11_no_tiers", "6_empty", "18_no_libor_sheet", "19_by_its_last_balance", "7_months_3_of_row_2", "7_months_0_of_a_borrowing",
    "8_brokered", "9_no_total", "9_no_total_of_borrowings")}


def main():
    for name, data in {**{f"refused_{name}": data for name, data in REFUSED.items()}, **LISTED}.items():
        (FOLDER / "listing" / f"{name}.in").write_bytes(data)
    for name, data in OPENED.items():
        (FOLDER / "book" / f"{name}.filing").write_bytes(data)


if __name__ == "__main__":
    main()
