#!/usr/bin/env python3
"""The Python package in one interpreter against brute force; python_test.py starts it with the package on its path.

    python_cases.py with|without

`without` hides numpy from the package. Entries fed random calls beside brute_force.py's book and machine, factor files of all kinds, lines by direct
sums, two primes combined, sections, files for viewers, overlays, windows and lanes by the cases and answers of the tests of each; then arguments that are
none, for every parameter of every call: an exception in Python, and not a number changed. Every call of the header is called. The seed is fixed. Prints
what differs, then how many comparisons agreed and how many did not, and the version of numpy or none.
"""
import glob
import os
import random
import sys
import tempfile
import threading

if sys.argv[1:] == ["without"]:
    sys.modules["numpy"] = None

import recorder
from recorder import arrays, calling, calls
from recorder.declarations import CALLS, VERSION

import combine_cases
import correlation_cases
import lanes
import mrc_cases
import section_cases
import window_cases
from brute_force import (PRIMES, SCRATCH, Book, Machine, all_points, density_place, e, factor_lists, file_faults, lengths_in, mul, needed, open_file,
                         pack_map, planes, product, signed, volume_length)
from expected_files import written
from printer_test import files
from python_arguments import friendly_arguments, lent_as_they_are, wrong_arguments
from python_values import Compared, counts_of, job_numbers, job_of, listed, numbers_of, outcome

TOP = os.path.dirname(os.path.dirname(os.path.abspath(__file__)))
SEED = 2026
# Triple sums over more points take too long.
MOST_POINTS = 600


# ---- entries

def random_lists(rng, n):
    return [rng.choice(list(factor_lists(m // 2))) for m in n]


def entry_against_book(compared, rng, g, n, modulus):
    """Random calls on an entry, beside a book that is fed the arguments alone. An index may be counted from the end."""
    lists = random_lists(rng, n)
    entry, book = recorder.Entry.collecting(g, n, modulus, lists), Book(g, n, lists, modulus)
    compared.expect("an opening", (entry.group, entry.lengths, entry.modulus, entry.prime, entry.lists, entry.planes),
                    (g, n, modulus, book.p, lists, planes(g, n)))
    for _ in range(40):
        kind = rng.choice(["record"] * 6 + ["synthesis", "analysis", "point", "factor", "map_power", "factor_power"])
        at = [rng.randrange(-m, m + 1) for m in n]
        index = [i + m if i < 0 else i for i, m in zip(at, n)]
        if kind == "record":
            v = rng.choice([(rng.randrange(-book.p + 1, book.p), 0), (0, rng.randrange(book.p)), (rng.randrange(book.p + 1), rng.randrange(book.p)), (0, 0)])
            got, want = outcome(entry.record, *at, *v), book.record(*index, *(c + book.p if c < 0 else c for c in v))
            want = want[0], None
        elif kind in ("synthesis", "analysis"):
            got, want = outcome(getattr(entry, kind)), getattr(book, kind)(SCRATCH)
            got, want = got[0], want[0]
        elif kind in ("point", "factor"):
            got, want = outcome(getattr(entry, kind), *at), getattr(book, kind)(*index)
            want = want[0], None if want[0] else want[1] if kind == "point" else want[1:]
        else:
            got, want = outcome(getattr(entry, kind)), book.power(kind == "map_power")
            want = want[0], None if want[0] else want[1]
        compared.expect("%s of an entry of group %d" % (kind, g), got, want)
        compared.expect("the entry after a " + kind, (job_numbers(entry.job), listed(entry.volume)), (book.job(), book.volume()))
    whole_entry(compared, entry, book)


def whole_entry(compared, entry, book):
    """Its file, its map as whole numbers, and back."""
    if entry.state == recorder.State.MAP_HELD:
        entry.analysis()
        book.analysis(SCRATCH)
    compared.expect("a file", entry.file(), written(book))
    compared.expect("a map that is none", outcome(entry.map), (22, None))
    entry.synthesis()
    book.synthesis(SCRATCH)
    M = {q: signed(x, book.p) for q, x in book.densities().items()}
    found = entry.map()
    compared.expect("the map of an entry", listed(found.numbers), pack_map(book.g, book.n, M))
    for z in range(-1, book.n[2] - 1):
        compared.expect("a plane", [[int(x) for x in row] for row in found.plane(z)], [[M[x, y, z % book.n[2]] for y in range(book.n[1])] for x in range(book.n[0])])
    x, y, z = (length // 2 for length in book.n)
    if z < planes(book.g, book.n):
        compared.expect("a number by its index", (int(found.numbers[z, x, y]), int(entry.volume[z, x, y])), (M[x, y, z], M[x, y, z] % book.p))
    again = recorder.Entry.of_numbers(found, book.modulus, book.lists)
    compared.expect("an entry of numbers", (job_numbers(again.job), listed(again.volume)), (book.job(), book.volume()))
    compared.expect("the file of an analysis", again.analysis().file(), written(book))


def entries(compared, rng):
    for g in range(5):
        for n in ((2, 2, 2), (4, 2, 6), (2, 8, 4), (6, 4, 4)):
            for modulus in PRIMES:
                entry_against_book(compared, rng, g, n, modulus)


def machine(compared, rng):
    """The calls on jobs and volumes that no call left, beside the machine of brute_force.py."""
    for turn in range(120):
        g, n, m = rng.randrange(5), rng.choice([(2, 2, 2), (4, 2, 2), (2, 4, 4)]), rng.choice([1, 2])
        kept = Machine()
        kept.lists, kept.length = random_lists(rng, n), volume_length(g, n) + rng.choice([0, 0, 0, 0, 1, -1])
        kept.volume = [rng.choice([0, 0, 0, 1, PRIMES[m] - 1, PRIMES[m]]) if turn % 3 == 0 else 0 for _ in range(4096)]
        volume, scratch = numbers_of(kept.lent()), numbers_of([7] * rng.choice([SCRATCH, SCRATCH, SCRATCH, SCRATCH - 1, SCRATCH + 9]))
        kept.scratch = [7] * max(len(scratch), SCRATCH)
        header = rng.choice([g, g, g, 5]), rng.choice([m, m, m, 0, 3]), rng.choice([0, 0, 1, 2]), rng.choice([n, n, n, (2, 3, 2), (4, 4, 4)])
        want = kept.open(*header[:3], *header[3])[0]
        got = outcome(calls.open_job, *header[:3], header[3], kept.lists, volume)
        compared.expect("open_job", (got[0], listed(volume)), (want, kept.lent()))
        job = recorder.Job() if want else got[1]
        for _ in range(12):
            kind = rng.choice(["record", "record", "synthesis", "analysis", "point", "factor", "map_power", "factor_power", "write"])
            at = [rng.randrange(length + (rng.random() < 0.1)) for length in n]
            if kind == "record":
                v = rng.choice([(1, 0), (0, 1), (5, 7), (0, 0), (PRIMES[m], 0)])
                got, want = outcome(calls.record, job, recorder.Reflection(*at), *v, volume), kept.record(*at, *v)[0]
            elif kind in ("synthesis", "analysis"):
                got, want = outcome(getattr(calls, kind), job, volume, scratch), kept.work(len(scratch), kind == "analysis")[0]
            elif kind == "point":
                got, want = outcome(calls.point, job, recorder.GridPoint(*at), volume), kept.point(*at)
                got, want = got, (want[0], None if want[0] else want[1])
            elif kind == "factor":
                got, want = outcome(calls.factor, job, recorder.Reflection(*at), volume), kept.factor(*at)
                want = want[0], None if want[0] else want[1:]
            elif kind == "write":
                out = bytearray(rng.choice([0, 21, 35, 1000]))
                got, want = outcome(calls.write_file, job, volume, out), kept.write(len(out))
                got, want = (got[0], bytes(out[:got[1] or 0])), want
            else:
                got, want = outcome(getattr(calls, kind), job, volume), kept.power(kind == "map_power")
                want = want[0], None if want[0] else want[1]
            if kind in ("record", "synthesis", "analysis"):
                job, got = got[1] or job, got[0]
            compared.expect("calls.%s" % kind, got, want)
            compared.expect("after calls.%s" % kind, (job_numbers(job), listed(volume)), (kept.job, kept.lent()))


# ---- files

def file_case(compared, file, every):
    refused, place, book = open_file(file, needed(file))
    try:
        entry, got = recorder.Entry.of_file(file), (0, None, ())
    except recorder.Refused as error:
        got = error.number, error.place, error.faults
        compared.expect("the words of a refusal", (error.words in str(error), "refused %d" % error.number in str(error)), (True, True))
    faults = tuple(file_faults(file))
    compared.expect("file %s" % file[:40].hex(), got, (refused, place if faults else None, faults))
    compared.expect("calls.file_faults", calls.file_faults(bytearray(file)), faults)
    if not refused and every:
        compared.expect("the volume of a file", (job_numbers(entry.job), listed(entry.volume)), (book.job(), book.volume()))
        compared.expect("the factors of a file", [entry.factor(*j) for j in book.F], list(book.F.values()))
        compared.expect("the file again", entry.file(), written(book))
        whole_entry(compared, entry, book)


def of_files(compared, _):
    samples = []
    for name in sorted(glob.glob(os.path.join(TOP, "samples/*.factors"))):
        with open(name, "rb") as file:
            samples.append(file.read())
        entry = recorder.read(name)
        with tempfile.TemporaryDirectory() as folder:
            path = os.path.join(folder, "again")
            entry.write(path)
            with open(path, "rb") as file:
                compared.expect("a file written by its name", file.read(), samples[-1])
            entry.synthesis()
            compared.expect("a file that is not written", (outcome(entry.write, path + "2"), os.listdir(folder)), ((23, None), ["again"]))
    for place, file in enumerate(samples + list(files())):
        if open_file(file, -1)[0] != 6 or product(lengths_in(file)) <= MOST_POINTS:
            file_case(compared, file, place % 2 == 0)


# ---- one line, by direct sums over the whole line

def unfolded(kind, v, n, p, before):
    """The whole line of what is packed before a forward transform, or after it."""
    a = n // 2
    pair = [(v[2 * j], v[2 * j + 1]) for j in range(len(v) // 2)]
    conj, neg = (lambda x: (x[0], -x[1] % p)), (lambda x: (-x[0] % p, -x[1] % p))
    if kind == 0:
        return pair
    if kind == 4:
        return [pair[min(t, n - t)] for t in range(n)]
    if kind == 5:
        return [(0, 0) if t in (0, a) else pair[t - 1] if t < a else neg(pair[n - t - 1]) for t in range(n)]
    if not before:
        return [(x, 0) for x in v] if kind == 1 else [(0, x) for x in v] if kind == 2 else pair + [conj(x) for x in pair]
    ends = {1: [(v[0], 0), (v[1], 0)], 2: [(0, v[0]), (0, v[1])], 3: [(v[0], 0), (0, v[1]) if a % 2 else (v[1], 0)]}[kind]
    turned = [{1: conj(x), 2: neg(conj(x)), 3: neg(conj(x)) if u % 2 else conj(x)}[kind] for u, x in enumerate(pair)]
    return [ends[0]] + pair[1:a] + [ends[1]] + turned[:0:-1]


def folded(kind, X, n, before):
    a = n // 2
    if kind in (0, 4, 5) or kind == 3 and not before:
        chosen = {0: X, 4: X[:a + 1], 5: X[1:a], 3: X[:a]}[kind]
        return [c for x in chosen for c in x]
    if not before:
        return [x[kind - 1] for x in X]
    ends = [X[0][1 if kind == 2 else 0], X[a][1 if kind == 2 or kind == 3 and a % 2 else 0]]
    return ends + [c for x in X[1:a] for c in x]


def transformed(kind, direction, v, n, p):
    X = unfolded(kind, v, n, p, direction == 0)
    sums = []
    for s in range(n):
        terms = [mul(x, e(t * s if direction == 0 else -t * s, n, p), p) for t, x in enumerate(X)]
        share = 1 if direction == 0 else pow(n, p - 2, p)
        sums.append((sum(x[0] for x in terms) * share % p, sum(x[1] for x in terms) * share % p))
    return folded(kind, sums, n, direction == 1)


def of_lines(compared, rng):
    for modulus, p in PRIMES.items():
        for kind in recorder.Kind:
            for n in (2, 4, 6, 8, 10, 12, 30, 36):
                for direction in recorder.Direction:
                    v = [rng.randrange(p) for _ in range(recorder.line_length(kind, n))]
                    want = transformed(kind, direction, v, n, p)
                    compared.expect("a line", listed(recorder.line(kind, direction, n, v, modulus)), want)
                    line = numbers_of(v)
                    calls.line(modulus, kind, direction, n, rng.choice(list(factor_lists(n // 2))), line, numbers_of([0] * SCRATCH))
                    compared.expect("a line in place", listed(line), want)
    line = numbers_of([1] * 8)
    for number, call in {26: (0, 1, 0, 8, [4], 8), 1: (1, 6, 0, 8, [4], 8), 2: (1, 1, 2, 8, [4], 8), 3: (1, 1, 0, 14, [4], 8), 4: (1, 1, 0, 8, [6], 8),
                         5: (1, 1, 0, 8, [2], 8), 6: (1, 0, 0, 8, [4], 8), 13: (1, 1, 0, 8, [4], 8), 7: (1, 1, 0, 8, [4], 8)}.items():
        line[0] = PRIMES[1] if number == 7 else 1
        scratch = numbers_of([0] * (SCRATCH - (number == 13)))
        compared.expect("a line that is refused", outcome(calls.line, *call[:5], line, scratch), (number, None))
    for length in range(2, 2881, 2):
        if 2880 % length == 0:
            fewest = min(factor_lists(length // 2), key=len) if length < 400 else recorder.factor_list(length)
            compared.expect("a factor list", (product(recorder.factor_list(length)), len(recorder.factor_list(length))), (length // 2, len(fewest)))


# ---- combined maps and windows, by the cases of their own tests

def combinations(compared, _):
    for place, (first, v, second, w, output) in enumerate(combine_cases.cases()):
        if place > 60 and place % 5:
            continue
        want, out = combine_cases.answer(first, v, second, w, output), counts_of(output)
        got = outcome(calls.combine, job_of(first), numbers_of(v), job_of(second), numbers_of(w), out)
        compared.expect("calls.combine", (got, listed(out)), ((want[0], None if want[0] else len(output)), list(want[1])))
        if not want[0]:
            entries_of = [recorder.Entry(job_of(job), numbers_of(x)) for job, x in ((first, v), (second, w))]
            compared.expect("combine", listed(recorder.combine(*entries_of).numbers), list(want[1]))
            found = recorder.combine(*entries_of)
            places = {x: density_place(found.group, found.lengths, x) for x in all_points(found.lengths)} if product(found.lengths) < 200 else {}
            compared.expect("points of a map", {x: found.point(*x) for x in places}, {x: want[1][place] for x, place in places.items()})
            compared.expect("a point from the end", found.point(-1, -1, -1), want[1][density_place(found.group, found.lengths, [n - 1 for n in found.lengths])])
            compared.expect("a point outside", outcome(found.point, 0, found.lengths[1], 0), (10, None))
            compared.expect("combine the other way round", outcome(recorder.combine, *entries_of[::-1]), (27, None))


def sections(compared, _):
    for place, (group, n, z, codes, room, _) in enumerate(section_cases.cases()):
        if place % 4 and max(n) < 2880:
            continue
        number, count, want = section_cases.answer(group, n, z, codes, room)
        out, numbers = bytearray([section_cases.DOT]) * room, counts_of([section_cases.COUNTS[c] for c in codes])
        compared.expect("calls.section", (outcome(calls.section, group, n, numbers, z, out), out), ((number, None if number else count), want))
        if not number:
            found = recorder.Map(group, n, numbers)
            compared.expect("a section", found.section(z).encode(), bytes(want[:count]))
            compared.expect("its plane", [[int(x) for x in row] for row in found.plane(z - n[2])], section_cases.plane(group, n, codes, z))


def viewers(compared, _):
    for place, (group, n, codes, kind, p, room) in enumerate(mrc_cases.cases()):
        if place % 2:
            continue
        values = [mrc_cases.float_of(b) for b in p]
        number, count, check = mrc_cases.answer(group, n, codes, kind, p, room)
        out, numbers = bytearray([mrc_cases.FRESH]) * room, counts_of([mrc_cases.NUMBERS[c] for c in codes])
        cell = recorder.UnitCell(3 if kind == 0 else 1, *values)
        got = outcome(calls.mrc, group, n, numbers, cell, out)
        compared.expect("calls.mrc", (got, mrc_cases.checksum(out)), ((number, None if number else count), check))
        if not number:
            angles = values[3:] if kind == 0 else [None, None, values[5]]
            compared.expect("a file for viewers", recorder.Map(group, n, numbers).mrc(*values[:3], *angles), bytes(out[:count]))


def overlays(compared, _):
    cases = correlation_cases
    for place, (lengths, lists, a, b, rooms) in enumerate(cases.cases()):
        if place > 60 and place % 4:
            continue
        said, want = cases.answer((lengths, lists, a, b, rooms))
        first, second = (counts_of([cases.COUNTS[c] for c in codes]) for codes in (a, b))
        out, work, scratch = counts_of([9] * rooms[0]), [numbers_of([7] * room) for room in rooms[1:4]], numbers_of([5] * rooms[4])
        got = outcome(calls.correlate, lengths, lists, first, second, out, work, scratch)
        after = [*map(cases.checksum, map(listed, work)), cases.checksum(listed(scratch))]
        compared.expect("calls.correlate", (got, listed(out), after), ((said[0], None if said[0] else said[1]), want, said[2:]))
        if not said[0]:
            one, other = (recorder.Map(0, lengths, numbers) for numbers in (first, second))
            compared.expect("an overlay", listed(one.overlay(other).numbers), want)


def windows(compared, _):
    scores = window_cases.SCORES
    for place, (w, codes, rooms) in enumerate(window_cases.cases()):
        if place % 2:
            continue
        run = [scores[c] for c in codes]
        number, count, *checks = window_cases.answer(w, codes, rooms)
        outputs = [counts_of([12345] * rooms[0]), counts_of([12345] * rooms[1]),
                   arrays.filled([7] * rooms[2], arrays.PLACES), arrays.filled([7] * rooms[3], arrays.PLACES)]
        got = outcome(calls.drift, counts_of(run), w, *outputs)
        coded = [[scores.index(x) if x in scores else len(scores) for x in listed(output)] for output in outputs[:2]] + [listed(x) for x in outputs[2:]]
        compared.expect("calls.drift", (got, [window_cases.checksum(x) for x in coded]), ((number, None if number else count), checks))
        if number != 34:
            found = recorder.drift(run if place % 4 else counts_of(run), w)
            compared.expect("drift", list(zip(*map(listed, found))), window_cases.windows(run, w))


# ---- lanes

def lane_job(rng):
    """A job that holds factors, with its volume."""
    g, n, m = rng.randrange(5), rng.choice([(2, 2, 2), (4, 2, 2), (2, 2, 4), (2, 4, 2)]), rng.choice([1, 2])
    lists = random_lists(rng, n)
    book, entry = Book(g, n, lists, m), recorder.Entry.collecting(g, n, m, lists)
    for _ in range(6):
        at, v = [rng.randrange(length) for length in n], rng.choice([(rng.randrange(book.p), 0), (0, rng.randrange(book.p))])
        if not book.record(*at, *v)[0]:
            entry.record(*at, *v)
    return book, entry


def scheduler_numbers(value):
    return [x for lane in value.lanes for x in (lane.left, *job_numbers(lane.job))] + [value.last]


def of_lanes(compared, rng):
    """A scheduler and its model, side by side: entering, turns, withdrawing, at random."""
    for _ in range(6):
        ours, model, volumes, books, scratch = recorder.Scheduler(), lanes.Scheduler(), {}, {}, [0] * SCRATCH
        for _ in range(160):
            kind = rng.choice(["enter"] + ["turn"] * 8 + ["withdraw"] * (rng.random() < 0.3))
            if kind == "enter":
                (book, entry), lane = lane_job(rng), rng.choice([None, rng.randrange(10)])
                asked = lane if lane is not None else next((d for d in range(1, 9) if not model.running(d)), 1)
                got, want = outcome(ours.enter, entry, lane), model.enter(asked, book.job(), book.volume(), scratch)[0]
                compared.expect("enter", got, (want, None if want else asked))
                if not want:
                    volumes[asked], books[asked] = book.volume(), (book, entry)
                    compared.expect("an entry that runs", (job_numbers(entry.job), outcome(entry.point, 0, 0, 0), outcome(ours.enter, entry, None)[0] in (25, 31)),
                                    ([0] * 9, (25, None), True))
            elif kind == "turn":
                lane = model.next_lane()
                number, served, job = model.turn(volumes.get(lane, []), scratch)
                compared.expect("next", ours.next, lane)
                turn = ours.turn()
                compared.expect("turn", (turn.lane, turn.finished is not None), (served, number == lanes.FINISHED))
                if turn.finished:
                    book, entry = books.pop(served)
                    book.synthesis(SCRATCH)
                    compared.expect("a lane that is finished", (turn.finished is entry, job_numbers(entry.job), listed(entry.volume)), (True, job, book.volume()))
                elif served:
                    compared.expect("a lane's volume", listed(books[served][1]._volume), volumes[served])
            else:
                lane = rng.randrange(10)
                got, want = outcome(ours.withdraw, lane), model.withdraw(lane)[0]
                compared.expect("withdraw", got, (want, None if want else books.pop(lane)[1]))
            compared.expect("the scheduler", (scheduler_numbers(ours.lanes), sorted(ours.entries)), (model.numbers(), sorted(books)))
            compared.expect("lines left", [ours.lines_left(lane) for lane in range(10)], [0] + [lane[0] for lane in model.lanes] + [0])
        compared.expect("the rest of them", sorted(lane for lane, _ in ours.run()), sorted(books))
        compared.expect("an idle scheduler", (ours.next, ours.turn(), list(ours.run())), (0, (0, None), []))


def in_threads(compared, rng):
    """Threads with an entry each, at once, beside one after the other."""
    made = [[recorder.Entry.collecting(g, (24, 24, 24), m) for g in range(5) for m in PRIMES] for _ in range(2)]
    for one, other in zip(*made):
        for _ in range(20):
            at = [rng.randrange(24) for _ in range(3)]
            v = rng.randrange(one.prime)
            compared.expect("a record twice", outcome(one.record, *at, v), outcome(other.record, *at, v))
    threads = [threading.Thread(target=entry.synthesis) for entry in made[0]]
    for thread in threads:
        thread.start()
    for thread in threads:
        thread.join()
    for one, other in zip(*made):
        compared.expect("a map made in a thread", listed(one.volume) == listed(other.synthesis().volume), True)


def main():
    compared, called = Compared(), set()
    answered = calling.answered

    def noted(name, *arguments):
        called.add(name)
        return answered(name, *arguments)

    calling.answered = noted
    for part in (entries, machine, of_files, of_lines, combinations, sections, viewers, overlays, windows, of_lanes, in_threads,
                 lent_as_they_are):
        part(compared, random.Random(SEED))
    compared.expect("the version of the library", calls.version(), VERSION)
    compared.expect("the calls that the package made", sorted(called), sorted(CALLS))
    for part in (wrong_arguments, friendly_arguments):
        part(compared, random.Random(SEED))
    print(compared.agreed, compared.wrong, arrays.numpy.__version__ if arrays.numpy is not None else "none")


if __name__ == "__main__":
    main()
