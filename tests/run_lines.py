#!/usr/bin/env python3
"""Makes the inputs and arguments of the stored runs of `quote` (tests/runs/quote). What is to be printed stands beside them in NAME.out, and no program
writes it."""
import pathlib
import struct

FOLDER = pathlib.Path(__file__).parent / "runs" / "quote"
NAN, INFINITY, SMALLEST, ABOVE_1000 = float("nan"), float("inf"), 5e-324, 1000.0000000000001


def line(months, *prices):
    """The 58 bytes of a line; one price stands for all seven."""
    return struct.pack("<H7d", months, *(prices * 7 if len(prices) == 1 else prices))


def faulty(price, scenario):
    """A line whose price in one scenario is another."""
    prices = [100.0] * 7
    prices[scenario] = price
    return line(12, *prices)


def rising(count):
    """So many lines of 0, 3, 6, .. months, with 90 and the index as price."""
    return b"".join(line(3 * i, 90.0 + i) for i in range(count))


EXAMPLE = (FOLDER.parent.parent.parent / "examples" / "lines").read_bytes()
SIGNED_NAN = struct.pack("<H", 12) + bytes.fromhex("0100000000 00f0ff") * 7

RUNS = {
    "listed_first": (EXAMPLE, "6", "0"),
    "listed_last": (EXAMPLE, "36", "6"),
    "listed_of_one_line": (line(12, 99.5), "12", "3"),
    "listed_month_0": (rising(2), "0", "0"),
    "listed_month_65535": (line(65_535, SMALLEST), "65535", "2"),
    "listed_last_of_64": (rising(64), "189", "4"),
    "listed_1000": (line(12, 1000.0), "12", "0"),
    "listed_zeros_in_front": (EXAMPLE, "0006", "00"),
    "between_rising": (line(36, 4.42) + line(115, 122.81), "51", "1"),
    "between_falling": (line(19, 58.89) + line(92, 5.13), "80", "5"),
    "between_last_two": (EXAMPLE, "30", "2"),
    "between_equal_prices": (line(6, 101.0) + line(12, 101.0), "9", "0"),
    "between_neighbouring_floats": (line(0, SMALLEST) + line(4, 2 * SMALLEST), "3", "0"),
    "between_widest": (line(0, 1000.0) + line(65_535, SMALLEST), "40000", "6"),
    "outside_before": (EXAMPLE, "5", "0"),
    "outside_behind": (EXAMPLE, "37", "0"),
    "outside_scenario_7": (EXAMPLE, "6", "7"),
    "outside_largest_scenario": (EXAMPLE, "6", "18446744073709551615"),
    "outside_month_65542": (EXAMPLE, "65542", "0"),
    "outside_no_lines": (b"", "6", "0"),
    "refused_equal_months": (line(6, 100.0) + line(12, 100.0) + line(12, 100.0), "6", "0"),
    "refused_falling_months": (line(6, 100.0) + line(5, 100.0), "6", "0"),
    "refused_price_0": (line(6, 100.0) + faulty(0.0, 6), "6", "0"),
    "refused_price_minus_0": (line(6, 100.0) + faulty(-0.0, 0), "6", "0"),
    "refused_price_negative": (faulty(-100.0, 3), "12", "0"),
    "refused_price_above_1000": (faulty(ABOVE_1000, 1), "12", "0"),
    "refused_infinity": (faulty(INFINITY, 2), "12", "0"),
    "refused_minus_infinity": (faulty(-INFINITY, 4), "12", "0"),
    "refused_not_a_number": (line(6, 100.0) + line(9, 100.0) + faulty(NAN, 5), "6", "0"),
    "refused_signed_not_a_number": (SIGNED_NAN, "12", "0"),
    "refused_65th_line": (rising(65), "0", "0"),
    "refused_66_lines": (rising(66), "0", "0"),
    "refused_before_the_65th_line": (rising(31) + line(90, 100.0) + rising(40), "0", "0"),
    "refused_before_scenario_7": (faulty(NAN, 0), "12", "7"),
    "unreadable_no_argument": (EXAMPLE,),
    "unreadable_no_scenario": (EXAMPLE, "6"),
    "unreadable_empty_month": (EXAMPLE, "", "0"),
    "unreadable_empty_scenario": (EXAMPLE, "6", ""),
    "unreadable_letters": (EXAMPLE, "six", "0"),
    "unreadable_minus": (EXAMPLE, "6", "-1"),
    "unreadable_plus": (EXAMPLE, "+6", "0"),
    "unreadable_point": (EXAMPLE, "6.0", "0"),
    "unreadable_space_behind": (EXAMPLE, "6 ", "0"),
    "unreadable_space_before": (EXAMPLE, "6", " 0"),
    "unreadable_2_to_the_64": (EXAMPLE, "18446744073709551616", "0"),
    "unreadable_part_of_a_line": (EXAMPLE[:-1], "6", "0"),
    "unreadable_one_byte_more": (EXAMPLE + b"\0", "6", "0"),
    "unreadable_before_21": (faulty(NAN, 0), "x", "0"),
}


def main():
    FOLDER.mkdir(exist_ok=True)
    for name, (data, *words) in RUNS.items():
        (FOLDER / f"{name}.in").write_bytes(data)
        if words:
            (FOLDER / f"{name}.args").write_text("".join(word + "\n" for word in words))


if __name__ == "__main__":
    main()
