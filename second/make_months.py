"""Random months for mep-statement and for scripts of calls.

Two months in five have a record of constants, some of them with version 9.6's numbers. A cell's totals are chosen first, at
or about the bounds that decide its verdict and its month's exemption under the constants that hold, and then spread over
messages, contracts and records; so every mark comes often, and comparisons are tried where they turn. In some cells a
correction gives the totals, and activity before or after it others.
"""
from dataclasses import asdict, dataclass
from itertools import accumulate

from make_cases import activity, constants, correction, firm, group, head
from mep_second import ALNUM, LIMIT, V96, Constants, days_in, factor, le, per_firm_group, selection

TOP = 2 ** 32 - 1
CELLS = 8_184 // per_firm_group()  # firm-groups that the book of mep-statement fits
POSTED = {4: 44, 8: 32}  # kinds of records that are posted, with their lengths
NEW, FAK_FOK, MINIMUM = 0, 3, 6  # places of these orders among a record's eight counts
OWN = .4  # share of the months that have a set of constants of their own
CORRECTED = .12  # share of the cells that are corrected
# The editions of a cell's corrections: one, or two that rise, stay or fall.
EDITIONS = ((1,), (1,), (1,), (2,), (TOP,), (1, 2), (1, 2), (TOP - 1, TOP), (1, 1), (TOP, TOP), (2, 1), (TOP, 1))
# k, front and extra mask: those of section 2 of the Program, then every contract, then every quarterly one.
SELECTIONS = ((8, 2_340, 0), (3, 4_095, 2_080), (3, 4_095, 585), (3, 4_095, 2_112), (3, 4_095, 1_088), (4, 4_095, 0),
              (64, 4_095, 0), (64, 2_340, 0))
MANNERS = (("efficient", "wasteful"), ("wasteful",), ("unfilled", "silent"),
           ("efficient", "wasteful", "unfilled", "silent", "at a bound"))


@dataclass
class Group:
    """The fields of a group's record, in its order."""
    code: bytes
    grouping: int
    k: int
    benchmark: int
    front: int
    extra: int
    listed: list

    def record(self):
        return group(self.code, self.grouping, self.k, self.benchmark, self.front, self.extra, self.listed)

    def traded(self):
        """The counted contracts; all where none is."""
        return sorted(selection(self.k, self.front, self.extra, self.listed)) or self.listed


@dataclass
class Month:
    number: int
    closed: int
    own: Constants | None  # the set of its kind 6 record, if it has one
    groups: list
    firms: list
    activity: list

    def constants(self):
        """The constants that hold: the month's own, or version 9.6's."""
        return self.own or V96

    def parts(self):
        """The records of the schedule by their kind: the head, the set of constants if there is one, groups, firms."""
        rules = [constants(**asdict(self.own))] if self.own else []
        return [head(self.number, self.closed)], rules, [g.record() for g in self.groups], [firm(code) for code in self.firms]

    def schedule(self):
        return sum(self.parts(), [])

    def records(self):
        return self.schedule() + self.activity

    def bytes(self):
        return b"".join(self.records())

    def open_days(self):
        """The days in effect; the first where none is."""
        return [day for day in range(1, days_in(self.number) + 1) if not self.closed >> day - 1 & 1] or [1]

    def closed_days(self):
        """The days not in effect; the first where none is."""
        return [day for day in range(1, days_in(self.number) + 1) if self.closed >> day - 1 & 1] or [1]

    def corrections(self):
        """The corrections of the month's own firms, days in effect and groups."""
        groups, days = {g.code for g in self.groups}, self.open_days()
        return [c for c in self.activity if c[:4] == le(POSTED[8], 2) + le(8, 2)
                and c[4:7] in self.firms and c[7] in days and c[8:10] in groups]

    def corrected_cells(self):
        """Firm, day and group of each correction."""
        groups = {g.code: g for g in self.groups}
        return [(c[4:7], c[7], groups[c[8:10]]) for c in self.corrections()]


# ------------------------------------------------------------------- schedules

def codes(r, size, count):
    found = set()
    while len(found) < count:
        found.add(bytes(r.choices(ALNUM, k=size)))
    return r.sample(sorted(found), count)


def random_constants(r):
    """A lawful set: version 9.6's, or one of which any number may be its own, often at an end of its range."""
    edges = tuple(sorted(r.sample(range(r.choice((10, 90_000, 90_000, 1_000_001))), 3)))
    factors = tuple(sorted(r.choices(range(1, 11), k=3), reverse=True))
    extreme = r.choice(((0, 1, 2), (999_998, 999_999, 1_000_000)))
    own = Constants(
        r.choice((V96.edges, edges, edges, (0, *edges[1:]), (*edges[:2], 1_000_000), extreme)),
        r.choice((V96.factors, factors, factors, factors[:1] * 3, (10, 10, 10), (10, 5, 1), (1, 1, 1))),
        r.choice((V96.severe, V96.severe, 2, r.randint(1, 20), r.choice((1, 20)))),
        r.choice((V96.waivers, 0, 1, 3, 99)),
        r.choice((V96.dollars, 250, r.randint(1, 10_000), r.choice((1, 10_000)))))
    return r.choice((V96, own, own, own, own))


def random_group(r, code):
    k, front, extra = r.choice(SELECTIONS)
    if r.random() < .3:
        k, front, extra = r.randint(1, 6), r.randint(1, 4_095), r.randint(0, 4_095)
    n = r.choice((1, 2, 6, 12, r.randint(1, 64)))
    start = r.randrange(24_000, 25_200 - 2 * n)
    listed = sorted(r.sample(range(start, start + 2 * n), n))
    benchmark = r.choice((100, 1_000, 1_250, 1, 100_000, r.randint(1, 100_000)))
    return Group(code, r.randint(1, 2), k, benchmark, front, extra, listed)


def shape(r):
    """How many groups and firms: mostly few, and never more than the book fits."""
    groups = r.choice((1, 2, 3, r.randint(1, 6), r.randint(1, 32)))
    return groups, min(r.choice((1, 2, r.randint(1, 4), r.randint(1, CELLS))), CELLS // groups)


def quiet_month(r, groups, firms):
    """A month without activity: any month, or often October 2019 or a February."""
    number = r.choice((24_237, r.randrange(24_000, 25_200), 24_001 + 12 * r.choice((0, r.randrange(100)))))
    some, others = r.getrandbits(days_in(number)), r.getrandbits(days_in(number))
    return Month(number, r.choice((0, some, some & others)), random_constants(r) if r.random() < OWN else None,
                 [random_group(r, code) for code in codes(r, 2, groups)], codes(r, 3, firms), [])


# ----------------------------------------------------------------------- totals

def raw_counts(c):
    """Raw counts about each edge of these constants, between the edges and above them."""
    first, second, third = c.edges
    return (1, max(0, first - 1), first, first + 1, (first + second) // 2, second, second + 1, (second + third) // 2,
            third, third + 1, 3 * third // 2, 4 * third)


def day_totals(r, c, benchmark, manner):
    """Raw, score and lots of a day in a manner of trading, under these constants."""
    raw = r.choice(raw_counts(c)) + r.choice((0, 0, r.randint(0, c.edges[2] // 3)))
    lots = r.choice((1, 100, r.randrange(1, 5_000)))
    bound, severe = (n * benchmark * factor(raw, 1, c) * lots // 100 for n in (1, c.severe))
    if manner == "efficient":
        return raw, r.randint(0, bound), lots
    if manner == "wasteful":
        return raw, r.randint(bound, severe + 1), lots
    if manner == "unfilled":
        return raw, r.randint(0, 3 * raw), r.choice((0, 0, 1, r.randrange(20)))
    if manner == "silent":  # its lots count in no month
        return 0, 3 * r.randrange(1_000), 50 * lots
    return raw, r.choice((bound, bound + 1, severe, severe + 1)), lots


def usual_totals(r, c, benchmark, days):
    """Totals by day; often one day's lots are so many that the month is exempt."""
    manners = r.choice(MANNERS)
    totals = {day: day_totals(r, c, benchmark, r.choice(manners)) for day in r.sample(days, r.randint(1, len(days)))}
    if r.random() < .4:
        day = r.choice(sorted(totals))
        raw, score, lots = totals[day]
        totals[day] = raw, score, lots + r.choice((1_000, 50_000, 1_000_000))
    return totals


def edge_totals(r, c, benchmark, days):
    """A few days, each with messages, whose sums lie at the bounds that decide the exemption, or above one of them."""
    edge = max(1, r.choice(c.edges))
    shift = min(edge - 1, r.choice((0, 1, 5_000)))
    chosen = r.sample(days, min(len(days), r.randint(2, 5)))
    raws = [edge + (shift if i % 2 else -shift) for i in range(len(chosen) // 2 * 2)] + [edge] * (len(chosen) % 2)
    raws[-1] += r.choice((0, 0, 1))
    lots = [r.randrange(1, 3_000) for _ in chosen]
    bounds = [benchmark * factor(raw, 1, c) * n // 100 for raw, n in zip(raws, lots)]
    scores = [bound * r.randrange(70, 130) // 100 for bound in bounds]
    together = benchmark * factor(sum(raws), len(raws), c) * sum(lots) // 100
    scores[-1] = max(0, together - sum(scores[:-1])) + r.choice((0, 1, bounds[-1]))
    return dict(zip(chosen, zip(raws, scores, lots)))


def other_totals(r, c, benchmark):
    """Totals of a day about the bounds; at times one of them is none, or the highest of a correction."""
    totals = list(day_totals(r, c, benchmark, r.choice(MANNERS[-1])))
    if r.random() < .1:
        totals[r.randrange(3)] = r.choice((0, TOP))
    return totals


# ---------------------------------------------------------------------- records

def messages(r, raw, score, lots):
    """Eight counts with these totals, or a message or two more where there are none (one message cannot score 2)."""
    least = max(0, -(-(score - 3 * raw) // 3))
    least += score - 3 * least == 3 * raw - 1  # no messages score one less than three each
    # mass actions and minimum-quantity orders: their counts add to the score alone
    scored_only = min(score // 3, r.choice((least, least + r.randrange(1_000))))
    rest = score - 3 * scored_only
    ended = r.randint(min(max(0, -(-(rest - raw) // 2)), rest // 3), rest // 3)
    modified = rest - 3 * ended
    new, cancelled = max(0, raw - ended - modified), r.randint(0, ended)
    most = min(scored_only, new + ended - cancelled)  # minimum-quantity orders are among the new and FAK/FOK orders
    minimum = r.choice((0, r.randint(0, most), most))
    requests = r.randint(0, scored_only - minimum)
    return [new, modified, cancelled, ended - cancelled, requests, scored_only - minimum - requests, minimum, lots]


def split(r, counts):
    """The counts in one record, or spread over two or three; none has more minimum-quantity orders than orders."""
    parts = []
    for _ in range(r.choice((0, 0, 1, 2))):
        part = [r.randint(0, n) for n in counts]
        orders, later = part[NEW] + part[FAK_FOK], counts[NEW] + counts[FAK_FOK] - part[NEW] - part[FAK_FOK]
        part[MINIMUM] = r.randint(max(0, counts[MINIMUM] - later), min(counts[MINIMUM], orders))
        counts = [n - m for n, m in zip(counts, part)]
        parts.append(part)
    return parts + [counts]


def reported(r, code, day, g, totals):
    """Activity of a cell with these totals."""
    return [activity(code, day, g.code, r.choice(g.traded()), counts) for counts in split(r, messages(r, *totals))]


def corrected(r, c, code, day, g, totals):
    """Corrections of a cell, of which the highest edition has these totals."""
    editions = r.choice(EDITIONS)
    rows = [other_totals(r, c, g.benchmark) for _ in editions]
    rows[editions.index(max(editions))] = totals
    return [correction(code, day, g.code, edition, row) for edition, row in zip(editions, rows)]


def cell_records(r, c, code, day, g, totals):
    """Records of a cell with these totals: activity, or a correction of them and activity of others."""
    if r.random() < CORRECTED:
        return reported(r, code, day, g, other_totals(r, c, g.benchmark)) + corrected(r, c, code, day, g, totals)
    return reported(r, code, day, g, totals)


def fitting(records, room):
    """The first records, as many as fit in room bytes."""
    return [record for record, end in zip(records, accumulate(map(len, records))) if end <= room]


def trade(r, month, room):
    """Gives the month records in most of its firms and groups, in any order, of at most room bytes."""
    c = month.constants()
    for code in month.firms:
        for g in month.groups:
            if r.random() < .2:
                continue
            totals = r.choice((usual_totals, usual_totals, edge_totals))(r, c, g.benchmark, month.open_days())
            for day, cell in totals.items():
                month.activity += cell_records(r, c, code, day, g, cell)
    r.shuffle(month.activity)
    month.activity = fitting(month.activity, room)
    return month


def any_cell(r, month):
    """A firm, a day and a group, often of a corrected cell."""
    cells = month.corrected_cells()
    if cells and r.random() < .5:
        return r.choice(cells)
    return r.choice(month.firms), r.randint(1, days_in(month.number)), r.choice(month.groups)


def odd_activity(r, month):
    """Activity that is refused, that lies outside, that counts nothing, or whose minimum-quantity orders are all that can be."""
    (code, day, g), last = any_cell(r, month), days_in(month.number)
    contract, counts = r.choice(g.listed), [r.randrange(30_000) for _ in range(8)]
    usual = activity(code, day, g.code, contract, counts)
    # orders: none, few, many, or more than a count holds; minimum-quantity orders: as many or one more, if a count holds that
    new, fak_fok = r.choice(((0, 0), (r.randrange(9), r.randrange(9)), (1 << 31, (1 << 31) - 2), (TOP, 1)))
    edge = new, 0, 0, fak_fok, 0, 0, min(TOP, new + fak_fok + r.randint(0, 1)), 0
    return r.choice((
        usual,
        activity(code, day, g.code, contract),
        activity(code, day, g.code, contract, edge),
        activity(code, r.choice(month.closed_days()), g.code, contract, edge),
        activity(r.choice((b"abc", *codes(r, 3, 1))), day, g.code, contract, counts),
        activity(code, day, r.choice((b"es", *codes(r, 2, 1))), contract, counts),
        activity(code, r.choice((0, last + 1, 32, 255)), g.code, contract, counts),
        activity(code, day, g.code, r.choice((0, g.listed[0] - 1, g.listed[-1] + 1, 65_535)), counts),
        activity(code, day, g.code, contract, counts, kind=r.choice((0, 5, 6, 260, 1_028))),
        le(45, 2) + usual[2:] + b"\0",
        le(43, 2) + usual[2:43],
        le(32, 2) + usual[2:32],
    ))


def odd_correction(r, month):
    """A correction that is refused, that lies outside, or that has the edition of another."""
    (code, day, g), last = any_cell(r, month), days_in(month.number)
    edition, totals = r.choice((1, 2, 3, TOP)), other_totals(r, month.constants(), g.benchmark)
    usual = correction(code, day, g.code, edition, totals)
    size, again = r.choice((31, 33, 44)), r.choice(month.corrections() or [usual])
    return r.choice((
        usual,
        again[:16] + usual[16:],
        correction(code, r.choice(month.closed_days()), g.code, edition, totals),
        correction(code, day, g.code, edition, totals, zero=r.choice((1, 256, 65_535))),
        correction(code, day, g.code, edition, totals, last=r.choice((1, 256, 65_536, 1 << 24, TOP))),
        correction(code, day, g.code, 0, totals),
        correction(r.choice((b"abc", *codes(r, 3, 1))), day, g.code, edition, totals),
        correction(code, day, r.choice((b"es", *codes(r, 2, 1))), edition, totals),
        correction(code, r.choice((0, last + 1, 32, 255)), g.code, edition, totals),
        correction(code, day, g.code, edition, totals, kind=r.choice((0, 5, 6, 264, 2_056))),
        le(size, 2) + (usual + bytes(12))[2:size],
    ))


def odd_record(r, month):
    """Odd activity or an odd correction."""
    return r.choice((odd_activity, odd_correction))(r, month)


def full_cell(r, month):
    """Records that fill one total of a cell to the limit or one below it, and then more; often with corrections."""
    c, g, place = month.constants(), r.choice(month.groups), r.choice((0, 1, 4, 6, 7))
    full = [LIMIT // 3] if place in (4, 6) else [TOP, TOP, LIMIT - 2 * TOP - r.randint(0, 1)]
    filled = (NEW, MINIMUM) if place == MINIMUM else (place,)  # minimum-quantity orders are among the new orders
    rows = [[n if j in filled else 0 for j in range(8)] for n in full]
    rows += [[0] * 8, [0, 1] + [0] * 6, [0] * 7 + [1], [0, 1] + [0] * 5 + [1], [r.randrange(TOP) for _ in range(8)]]
    code, day = r.choice(month.firms), r.choice(month.open_days())
    records = [activity(code, day, g.code, r.choice(g.traded()), counts) for counts in rows]
    if r.random() < .3:
        put_in(r, records, corrected(r, c, code, day, g, other_totals(r, c, g.benchmark)))
    return records


def put_in(r, records, more):
    """Puts more records here and there between the records, in their order."""
    places = sorted(r.randint(0, len(records)) for _ in more)
    for i, (place, record) in enumerate(zip(places, more)):
        records.insert(place + i, record)


# ----------------------------------------------------------------- whole months

def whole_month(r, room):
    month = trade(r, quiet_month(r, *shape(r)), r.randrange(room))
    put_in(r, month.activity, [odd_record(r, month) for _ in range(r.choice((0, 0, 3, 10)))])
    return month


def dense_month(r):
    """One firm that fails on nearly every day in nearly every one of many groups, on some by a correction alone."""
    month = quiet_month(r, r.randint(16, 32), 1)
    month.closed &= r.choice((0, 1 << 14))
    c = month.constants()
    for g in month.groups:
        manner = r.choice(("wasteful", "unfilled", "at a bound"))
        for day in month.open_days():
            raw, score, lots = day_totals(r, c, g.benchmark, manner)
            totals = max(c.edges[0] + 1, raw), max(1, score), lots
            if r.random() < CORRECTED:
                month.activity += corrected(r, c, month.firms[0], day, g, totals)
            else:
                counts = messages(r, *totals)
                month.activity.append(activity(month.firms[0], day, g.code, r.choice(g.traded()), counts))
    r.shuffle(month.activity)
    return month
