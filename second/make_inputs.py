#!/usr/bin/env python3
"""Inputs of mep-statement and scripts of calls, made of random months: whole, crowded, damaged and cut.

    make_inputs.py SEED NUMBER > input      the input of mep-statement that second/compare gives that number
"""
import random
import sys
from dataclasses import asdict

from make_cases import Script, activity, constants, correction, firm, grant, group, head, sets
from make_months import (CELLS, POSTED, TOP, codes, day_totals, dense_month, full_cell, odd_record, other_totals, put_in,
                         quiet_month, random_group, shape, trade, whole_month)
from mep_second import LIMIT, V96, days_in, le, output_need, per_firm_group, width

ROOM = 65_536           # bytes that mep-statement takes
SCRIPT_ROOM = 262_144   # bytes of a script that cases takes
BOOK_ROOM = 16_384      # numbers of its book


def random_bytes(r, size):
    return bytes(r.randrange(256) for _ in range(size))


# ----------------------------------------------------------------- whole months

def whole(r):
    return whole_month(r, 50_000).bytes()


def dense(r):
    return dense_month(r).bytes()


def limit(r):
    month = whole_month(r, 10_000)
    for _ in range(r.randint(1, 3)):
        put_in(r, month.activity, full_cell(r, month))
    return month.bytes()


def crowded(r):
    """About as many firm-groups as the book fits, or many more."""
    sizes = ((1, 66), (1, 67), (1, 67), (2, 33), (2, 34), (3, 22), (3, 23), (6, 11), (11, 6), (32, 2), (32, 3), (4, 200))
    return trade(r, quiet_month(r, *r.choice(sizes)), 8_000).bytes()


def no_activity(r):
    return b"".join(quiet_month(r, *shape(r)).schedule())


def no_bytes(r):
    return b""


def of_size(r, size):
    """A month with more records after it, to exactly that many bytes; the last record is cut, or not."""
    month = trade(r, quiet_month(r, r.randint(1, 3), r.randint(1, 3)), r.choice((0, 50_000)))
    g = month.groups[0]
    usual = activity(month.firms[0], 1, g.code, g.listed[0], (3, 2, 1, 1, 0, 0, 0, 1))
    corrected = correction(month.firms[0], r.choice((1, 2)), g.code, r.choice((1, 2, TOP)),
                           other_totals(r, month.constants(), g.benchmark))
    more = r.choice((usual, usual, corrected, corrected + usual, firm(b"ABC"), constants(),
                     le(4, 2) + le(r.choice((4, 8, 9)), 2)))
    data = month.bytes()
    data += more * ((size - len(data)) // len(more))
    rest = size - len(data)
    return data + (le(rest, 2) + le(r.choice((4, 8, 9)), 2) + bytes(rest))[:rest]


def just_fitting(r):
    return of_size(r, ROOM)


def too_long(r):
    return of_size(r, ROOM + r.choice((1, 1, 2, 40_000)))


def noise(r):
    """Records of any kind with any body, after a good beginning or none."""
    first = head() + r.choice((b"", constants()))
    good = first + group() + firm()
    data = r.choice((b"", first, first + group(), good, good + activity(), good + correction()))
    for _ in range(r.randrange(6)):
        any_header = r.randrange(50), r.randrange(10)
        posted = [(size, kind) for kind, size in POSTED.items()]
        size, kind = r.choice(((10, 1), (28, 6), (18, 2), (20, 2), (7, 3), *posted, *posted, (4, 5), any_header))
        data += le(size, 2) + le(kind, 2) + bytes(r.choices(b"AZ09\x00\x01\x02\x5e\xaf\xff", k=max(0, size - 4)))
    return data + random_bytes(r, r.choice((0, 0, r.randrange(9))))


# --------------------------------------------------------------- damaged months

def bad_group(r, code):
    """A group with one field, or its length, at the end of its range or past it."""
    name, values = r.choice((
        ("code", (b"z9", b"A/", b"[A", b"@0", b":9")), ("grouping", (0, 3, 255)), ("k", (0, 64, 65)),
        ("b", (0, 1, 100_000, 100_001, 2 ** 32 - 1)), ("front", (0, 4_095, 4_096)), ("extra", (4_095, 4_096, 65_535)),
        ("listed", ((), (23_999,), (24_000, 25_199), (25_200,), (24_240, 24_240), (24_241, 24_240), range(24_300, 24_364),
                    range(24_300, 24_365))),
        ("size", (0, 16, 17, 19, 20, 146))))
    return group(**{"code": code, name: r.choice(values)})


def odd_set(r, c):
    """These constants with a field or two at an end of its range or past it, out of order, or of another length or kind."""
    fields = [*sets(), {"edges": r.choices(c.edges, k=3)}, {"factors": r.choices(c.factors, k=3)},
              *({"size": n} for n in (0, 4, 26, 27, 29, 30, 284)), {"kind": r.choice((5, 7, 262))}]
    return constants(**{**asdict(c), **r.choice(fields), **r.choice(({}, r.choice(fields)))})


def misplaced_set(r, month):
    """One set of constants more, anywhere: a second one, one that is not directly after the head, or by chance a due one."""
    records = month.records()
    last = r.choice((2, len(month.schedule()), len(records)))
    records.insert(r.randint(0, last), r.choice((constants(), odd_set(r, month.constants()))))
    return b"".join(records)


def cut_set(r, month):
    """A schedule that ends within or directly after a set of constants."""
    first = b"".join(month.parts()[0])
    return first + r.choice((constants(), odd_set(r, month.constants())))[:r.choice((28, r.randint(1, 27)))]


def faulty(r, month):
    """A schedule that one cause refuses, or two; by chance none."""
    heads, rules, groups, firms = month.parts()
    fault = r.randrange(15)
    if fault == 0:
        heads = r.choice(([], heads * 2, [head(r.choice((23_999, 25_200)))], [head(size=r.choice((9, 11)))]))
    elif fault == 1:
        heads = [head(r.choice((24_001, 24_003, 24_013, 24_237)), 1 << r.randint(27, 31))]
    elif fault == 2:
        groups = r.choice(([], groups[1:]))
    elif fault == 3:
        groups.insert(r.randint(0, len(groups)), bad_group(r, r.choice((b"ZZ", month.groups[0].code))))
    elif fault == 4:
        groups.append(r.choice(groups))
    elif fault == 5:
        groups += [random_group(r, code).record() for code in codes(r, 2, 33 - r.randint(0, len(groups)))]
    elif fault == 6:
        odd = r.choice((firms[0], firm(b"Z-9"), firm(b"/A["), firm(b"ZZZZ", size=8), firm(b"ZZ", size=6)))
        firms.insert(r.randint(0, len(firms)), odd)
    elif fault == 7:
        firms += [firm(b"%03d" % i) for i in range(201 - r.randint(0, len(firms)))]
    elif fault == 8:
        firms = r.choice(([], firms + groups[-1:], firms + heads))
    elif fault == 9:
        groups, firms = firms, groups
    elif fault in (10, 11):
        return r.choice((misplaced_set, misplaced_set, cut_set))(r, month)
    else:
        rules = [odd_set(r, month.constants())]
    return b"".join(heads + rules + groups + firms + month.activity)


def changed(r, month, offset, values):
    """Two bytes of one record replaced, of the schedule as often as of the activity."""
    records = month.records()
    i = r.choice((r.randrange(len(records)), r.randrange(len(month.schedule()))))
    records[i] = records[i][:offset] + le(r.choice(values), 2) + records[i][offset + 2:]
    return b"".join(records)


def changed_length(r, month):
    sizes = (0, 1, 2, 3, 3, 4, 5, 7, 10, 18, 20, 27, 28, 29, 31, 32, 33, 43, 44, 45, 88, r.randrange(3_000), 65_535)
    return changed(r, month, 0, sizes)


def changed_kind(r, month):
    return changed(r, month, 2, (0, 1, 2, 3, 4, 5, 6, 6, 8, 8, 16, 260, 262, 264, 1_025, 65_535))


def changed_bytes(r, month, end):
    data = bytearray(month.bytes())
    for _ in range(r.randint(1, 3)):
        data[r.randrange(end)] = r.choice((0, 1, 2, 3, 4, 6, 8, 10, 28, 32, 44, 255, r.randrange(256)))
    return bytes(data)


def changed_schedule(r, month):
    return changed_bytes(r, month, len(b"".join(month.schedule())))


def changed_anywhere(r, month):
    return changed_bytes(r, month, len(month.bytes()))


def cut_off(r, month):
    data = month.bytes()
    return data[:r.choice((r.randrange(40), r.randrange(len(data)), max(0, len(data) - r.randrange(50))))]


def with_tail(r, month):
    """One to three bytes more, after the activity or after the schedule."""
    return r.choice((month.bytes(), b"".join(month.schedule()))) + random_bytes(r, r.randint(1, 3))


def late_records(r, month):
    """Records of the schedule's kinds and unknown ones after the activity began."""
    start = month.schedule() + [odd_record(r, month)]
    late = [r.choice((*month.schedule(), constants(), firm(*codes(r, 3, 1)), le(4, 2) + le(r.choice((0, 3, 4, 5, 6, 8)), 2),
                      le(5, 2) + le(9, 2) + b"x", le(44, 2) + le(r.choice((0, 3, 5, 8, 260)), 2) + bytes(40),
                      le(32, 2) + le(r.choice((0, 3, 4, 5, 6, 8, 264)), 2) + bytes(28)))
            for _ in range(r.randint(1, 5))]
    put_in(r, month.activity, late)
    return b"".join(start + month.activity)


def bad_first(r, month):
    """The activity begins with a record of kind 4 or 8 whose length is not its own, mostly at its due place."""
    records = month.schedule()
    kind, own = r.choice(sorted(POSTED.items()))
    size = r.choice([n for n in (0, 1, 2, 3, 4, 5, 28, 31, 32, 33, 43, 44, 45, 46, 88, 65_535) if n != own])
    first = le(size, 2) + le(kind, 2) + random_bytes(r, r.choice((0, max(0, min(size, 88) - 4), r.randrange(60))))
    records.insert(r.choice((len(records), len(records), r.randint(0, len(records)))), first)
    return b"".join(records + month.activity)


def disordered(r, month):
    """A record left out, given twice, or changed for another."""
    records = month.records()
    i, j = r.randrange(len(month.schedule())), r.randrange(len(records))
    change = r.randrange(3)
    if change == 0:
        del records[i]
    elif change == 1:
        records.insert(j, records[i])
    else:
        records[i], records[j] = records[j], records[i]
    return b"".join(records)


WHOLE = {
    "whole month": whole, "dense month": dense, "total at the limit": limit, "crowded book": crowded,
    "no activity": no_activity, "no bytes": no_bytes, "65,536 bytes": just_fitting, "too long": too_long, "noise": noise,
}
DAMAGED = {
    "faulty schedule": faulty, "changed length": changed_length, "changed kind": changed_kind,
    "changed schedule": changed_schedule, "changed anywhere": changed_anywhere, "cut off": cut_off, "with a tail": with_tail,
    "late records": late_records, "bad first record": bad_first, "disordered": disordered,
}
KINDS = [*WHOLE, *DAMAGED]


def input_of(seed, number):
    """The kind and the bytes of an input; the kinds take turns."""
    r = random.Random("input %d %d" % (seed, number))
    kind = KINDS[number % len(KINDS)]
    return kind, WHOLE[kind](r) if kind in WHOLE else DAMAGED[kind](r, whole_month(r, 3_000))


def split_month(seed, number):
    """A month, and for each firm its code and the month of that firm alone: the same constants and groups, its own posts.

    A record that 11 to 13 refuse is no firm's; one of another kind, if it came first, would be read as part of the schedule, so
    no month begins with one.
    """
    month = whole_month(random.Random("split %d %d" % (seed, number)), 50_000)
    kinds, sizes = {le(kind, 2) for kind in POSTED}, {le(size, 2) + le(kind, 2): size for kind, size in POSTED.items()}
    while month.activity and month.activity[0][2:4] not in kinds:
        month.activity.pop(0)
    heads, rules, groups, _ = month.parts()
    common = b"".join(heads + rules + groups)
    posts = [r for r in month.activity if len(r) == sizes.get(r[:4])]
    own = {code: b"".join(r for r in posts if r[4:7] == code) for code in month.firms}
    return month.bytes(), [(code, common + firm(code) + own[code]) for code in month.firms]


# -------------------------------------------------------------- scripts of calls

def filled_script(r, part):
    """Parts, as many as a script has room for."""
    script = b""
    while len(script) + len(more := part(r)) <= SCRIPT_ROOM:
        script += more
    return script


def verdict_numbers(r):
    """Numbers of the panel's verdict, which keeps version 9.6's constants."""
    raw, score, lots = day_totals(r, V96, 1_000, r.choice(("efficient", "wasteful", "unfilled", "at a bound")))
    wild = r.choice((LIMIT, LIMIT + 1, 2 ** 64 - 1, r.getrandbits(64), r.getrandbits(34)))
    totals = r.choice(((raw, score, lots),) * 5 + ((wild, score, lots), (raw, wild, lots), (raw, score, wild)))
    return *totals, r.choice((1_000,) * 8 + (0, 1, 100_000, 100_001, 2 ** 64 - 1, r.randrange(1, 100_001)))


def spoilt_cell(r):
    """The numbers of a cell, as mostly no post leaves them."""
    totals = [r.choice((0, 70_000, 70_000, 10 ** 7, LIMIT, LIMIT + 1, 2 ** 64 - 1)) for _ in range(width() - 1)]
    return totals + [r.choice((0, 0, 0, 1, 2, 2 ** 32, LIMIT, LIMIT + 1, 2 ** 64 - 1))]


def spoil(r, script, month, size):
    """Spoils a cell, on any day, and posts to it activity of nothing or little, a correction or both."""
    f, g, day = r.randrange(len(month.firms)), r.randrange(len(month.groups)), r.randint(1, 31)
    at = ((f * len(month.groups) + g) * 31 + day - 1) * width()
    for i, n in enumerate(spoilt_cell(r)[:max(0, size - at)], at):
        script.write(i, n)
    little = r.choice(((0,) * 8, (1,) + (0,) * 7, (0, 1) + (0,) * 6, (0,) * 7 + (1,)))
    code, group = month.firms[f], month.groups[g]
    totals = other_totals(r, month.constants(), group.benchmark)
    posts = [activity(code, day, group.code, r.choice(group.traded()), little),
             correction(code, day, group.code, r.choice((1, 2, 3, TOP)), totals)]
    for record in r.choice((posts[:1], posts[1:], posts, posts[::-1])):
        script.post(record)


def grants_of(r, month):
    """Grants of the month's cells: of few, of most of one firm's or of every firm's; now and then one that 34 or 35 refuses."""
    share = r.choice((.02, .02, .3, 1))
    named = [grant(code, day, g.code) for code in r.sample(month.firms, r.randint(1, min(3, len(month.firms))))
             for g in month.groups for day in month.open_days() if r.random() < share]
    named += [grant(r.choice(month.firms), r.choice(month.closed_days()), r.choice(month.groups).code) for _ in range(r.choice((0, 0, 2)))]
    r.shuffle(named)
    if r.random() < .15:
        code, name = month.firms[0], month.groups[0].code
        odd = r.choice((grant(code, 0, name), grant(code, days_in(month.number) + 1, name), grant(code, 1, b"a0"), grant(b"a0A", 1, name),
                        grant(code, 1, name, size=r.choice((9, 11))), grant(code, 1, name, kind=r.choice((8, 265))),
                        grant(code, 1, name)[:r.randint(1, 9)]))
        named.insert(r.choice((r.randint(0, len(named)), len(named))), odd)
    return b"".join(named)


def reason_cells(r, month):
    """Firm, day and group of reasons: many that records name, one of each firm, and some that are no cell's."""
    last = days_in(month.number)
    named = sorted({(record[4:7], record[7], record[8:10]) for record in month.activity if len(record) >= 10})
    more = [(code, r.randint(1, last), r.choice(month.groups).code) for code in month.firms]
    code, day, name = more[0]
    odd = [(other, day, name) for other in (b"abc", b"", code[:2], code + b"A", name)]
    odd += [(code, other, name) for other in (0, last + 1, 32, 255)]
    odd += [(code, day, other) for other in (b"es", b"", name[:1], name + b"A", code)]
    odd += [(code, 0, b"es"), (b"abc", day, b"es"), (b"abc", 0, name)]
    return r.sample(named, min(len(named), 60)) + more + r.sample(odd, 4)


def month_calls(r):
    """One month as calls: open, posts, statements into outputs of many sizes and reasons, with grants or none; then verdicts."""
    month = dense_month(r) if r.random() < .05 else whole_month(r, r.choice((1_000, 5_000, 12_000)))
    if r.random() < .2:
        put_in(r, month.activity, full_cell(r, month))
    need = per_firm_group() * len(month.groups) * len(month.firms)
    size = min(BOOK_ROOM, need + r.choice((0,) * 12 + (1, per_firm_group(), -1, -need)))
    script = Script()
    script.schedule(b"".join(month.schedule()))
    script.book(size)
    script.open()
    for record in month.activity:
        own = len(record)
        script.post((record + b"\0")[:r.choice((own,) * 40 + (0, 3, 4, own - 1, own + 1))])
    for _ in range(r.choice((0, 0, 0, 1, 3))):
        spoil(r, script, month, size)
    script.digest()
    for code in r.sample(month.firms, min(3, len(month.firms))):
        script.grants(r.choice((b"", grants_of(r, month), grants_of(r, month))))
        for room in (r.randrange(output_need(40)), output_need(r.randrange(30)) - r.randint(0, 1), output_need(992)):
            script.statement(r.choice((code,) * 9 + (code[:2], code + b"A", b"", b"abc")), room)
        for cell in reason_cells(r, month):
            script.reason(*cell)
    for _ in range(20):
        script.verdict(*verdict_numbers(r))
    return script.bytes


def schedule_calls(r):
    """Opens a book by a damaged schedule."""
    month = quiet_month(r, *shape(r))
    script = Script()
    script.schedule(DAMAGED[r.choice(("faulty schedule", *DAMAGED))](r, month))
    script.book(per_firm_group() * CELLS)
    script.open()
    return script.bytes


def month_script(number):
    return filled_script(random.Random("months %d" % number), month_calls)


def schedule_script(number):
    return filled_script(random.Random("schedules %d" % number), schedule_calls)


if __name__ == "__main__":
    if len(sys.argv) != 3 or not all(word.isdigit() for word in sys.argv[1:]):
        sys.exit(__doc__)
    sys.stdout.buffer.write(input_of(*map(int, sys.argv[1:]))[1])
