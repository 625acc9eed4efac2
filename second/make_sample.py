#!/usr/bin/env python3
"""Makes the sample month: October 2019, two firms, four product groups.

    make_sample.py > samples/october-2019.bin
    mep_second.py < samples/october-2019.bin > samples/october-2019.txt

It shows the four marks of a month without grants, both exchange groupings, a correction, refused records and records that lie outside. The same bytes
come out every time.
"""
import sys

from make_cases import activity, correction, firm, group, head

OCTOBER_2019 = 2019 * 12 + 9
WEEKENDS = (5, 6, 12, 13, 19, 20, 26, 27)
QUARTERLY = (24_239, 24_242, 24_245, 24_248, 24_251)  # December 2019 to December 2020
MONTHLY = tuple(range(24_238, 24_262))  # November 2019 to October 2021

# Code, grouping, k, benchmark in hundredths, front mask, extra mask, listed contracts.
GROUPS = (
    (b"ES", 1, 64, 1_000, 4_095, 0, QUARTERLY),
    (b"NQ", 1, 64, 1_250, 4_095, 0, QUARTERLY),
    (b"CL", 2, 3, 800, 4_095, 2_080, MONTHLY),
    (b"NG", 2, 3, 600, 4_095, 585, MONTHLY),
)
FIRMS = (b"ABC", b"K7M")

# Firm, day, group, contract, then the eight counts: new orders, modifications, cancellations, FAK/FOK, mass action requests
# and reports, minimum-quantity orders, lots.
ACTIVITY = (
    # ABC in ES fails on the 8th, and its month is within the benchmark: monthly.
    (b"ABC", 1, b"ES", 24_239, (60_000, 110_000, 9_000, 1_000, 0, 0, 250, 40_000)),
    (b"ABC", 2, b"ES", 24_239, (58_000, 105_000, 8_500, 1_200, 0, 0, 310, 38_500)),
    (b"ABC", 8, b"ES", 24_239, (70_000, 130_000, 20_000, 2_000, 40, 40, 0, 9_800)),
    # In NQ two failed days are waived, of which the 9th would pass without its minimum-quantity orders; the 10th is above six
    # times the bound; and the 16th, which fails by the sum of two contracts and by neither alone, is billed.
    (b"ABC", 2, b"NQ", 24_239, (15_000, 20_000, 9_000, 1_000, 0, 0, 0, 1_600)),
    (b"ABC", 9, b"NQ", 24_239, (12_000, 18_000, 7_500, 500, 0, 0, 120, 1_120)),
    (b"ABC", 10, b"NQ", 24_239, (10_000, 1_000, 10_000, 500, 0, 0, 0, 100)),
    (b"ABC", 16, b"NQ", 24_239, (8_000, 14_000, 7_500, 500, 0, 0, 0, 1_100)),
    (b"ABC", 16, b"NQ", 24_242, (9_000, 16_000, 6_500, 500, 0, 0, 0, 1_000)),
    # CL belongs to the other grouping, with waivers of its own. August 2020 is listed and not counted: its lots, which would
    # have saved the month, lie outside.
    (b"ABC", 15, b"CL", 24_239, (20_000, 30_000, 18_000, 2_000, 0, 0, 0, 9_000)),
    (b"ABC", 16, b"CL", 24_247, (18_000, 40_000, 7_000, 1_000, 0, 0, 0, 20_000)),
    (b"ABC", 15, b"NG", 24_238, (4_000, 3_500, 1_400, 100, 0, 0, 0, 2_100)),
    # K7M in CL: June 2020 is the extra contract, and its lots exempt the 3rd. January 2030 is not listed: refused 17.
    (b"K7M", 1, b"ES", 24_239, (5_000, 4_000, 2_800, 200, 0, 0, 0, 60)),
    (b"K7M", 1, b"CL", 24_245, (25_000, 50_000, 13_000, 2_000, 6, 6, 0, 30_000)),
    (b"K7M", 3, b"CL", 24_238, (30_000, 30_000, 18_000, 2_000, 0, 0, 400, 8_000)),
    (b"K7M", 3, b"CL", 24_360, (200, 150, 90, 0, 0, 0, 0, 15)),
    # In NG Saturday the 5th lies outside; of four failed days, the 11th in the extra contract, April 2020, two are waived
    # and the 16th and the 22nd are billed; the 23rd is severe. The report of the 16th lacks a contract: not judged. That of the
    # 24th gives the number of all its messages as minimum-quantity orders, with which the day would fail: refused 33.
    (b"K7M", 4, b"NG", 24_238, (20_000, 15_000, 14_000, 1_000, 0, 0, 0, 4_000)),
    (b"K7M", 5, b"NG", 24_238, (9_000, 4_000, 11_000, 1_000, 0, 0, 0, 0)),
    (b"K7M", 11, b"NG", 24_243, (14_000, 16_000, 10_500, 700, 12, 12, 0, 2_900)),
    (b"K7M", 16, b"NG", 24_238, (7_000, 6_000, 2_700, 300, 0, 0, 0, 700)),
    (b"K7M", 22, b"NG", 24_239, (11_000, 9_000, 9_500, 500, 0, 0, 0, 1_200)),
    (b"K7M", 23, b"NG", 24_240, (20_000, 10_500, 28_000, 2_000, 0, 0, 0, 300)),
    (b"K7M", 24, b"NG", 24_238, (9_000, 8_000, 3_500, 500, 0, 0, 21_000, 2_000)),
)

# Firm, day, group, edition, then raw, score and lots.
CORRECTIONS = (
    # K7M's 16th in NG with both contracts: it fails.
    (b"K7M", 16, b"NG", 1, (34_000, 29_000, 1_500)),
)

# Activity after the corrections.
LATE = (
    # The other contract of K7M's 16th in NG, which the correction has: refused 32.
    (b"K7M", 16, b"NG", 24_239, (8_000, 8_000, 1_800, 200, 0, 0, 0, 800)),
)


def october_2019():
    closed = sum(1 << day - 1 for day in WEEKENDS)
    schedule = [head(OCTOBER_2019, closed), *(group(*g) for g in GROUPS), *map(firm, FIRMS)]
    posts = [activity(*row) for row in ACTIVITY] + [correction(*row) for row in CORRECTIONS]
    return b"".join(schedule + posts + [activity(*row) for row in LATE])


if __name__ == "__main__":
    if len(sys.argv) > 1:
        sys.exit(__doc__)
    sys.stdout.buffer.write(october_2019())
