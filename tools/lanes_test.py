#!/usr/bin/env python3
"""The test of `recorder lanes`: syntheses that take turns in eight lanes, their maps, and every line that is printed.

    lanes_test.py PROGRAM

The lanes are written again here from the paper: a line of a job each turn, for the next lane that runs above the one served last, round again after
the eighth; 16,777,216 numbers in all lanes; a file that finds no room waits, eight of them at most, while those behind that find room go ahead. So the
order of the lines, each lane and each count of turns are compared to the letter, and no count is above eight times the job's lines. Maps are brute
force's, by triple sums, and the same bytes as those of `recorder map --to`. The files are those of many_test.py: all five groups and both primes,
refused in every way, unread, map files among them, under odd names; lists with more files than lanes; lists of equal files, which meet the bound
exactly; large empty cells that have to wait, with no memory for what waits; signals at random moments; folders and lists that are wrong; a terminal.
The seed is fixed. Prints how many comparisons agreed; the exit status is 1 where one did not.
"""
import os
import pty
import random
import re
import signal
import subprocess
import time

from brute_force import LIMIT, file_bytes, planes, volume_length
from expected_files import map_head
from host_test import bounded
from many_test import COMBINED_POWER, Case, cases, contents_in, escaped, status_of, target, wrote
from tool import tested

SEED = 2026
LANES, MOST_WAITING = 8, 8
SIGNALS = 12
OF_MAP = b"cannot read: a map file has no factors to synthesise"
ENDS = ["written", "refused", "unread", "unwritten"]


# ---- the lanes

def lines_of(g, n):
    """How many lines a job has: along l, along h and along k."""
    pairs, stored = n[1] // 2 + 1, planes(g, n)
    return n[0] * pairs + stored * pairs + stored * n[0]


class Empty:
    """A large cell whose factors are all zero, without the sums."""

    def __init__(self, tool, name, g, n, lists):
        self.path, self.g, self.n, self.lists = tool.file(name, file_bytes(g, n, lists, [])), g, n, lists
        self.described = Case(self.path, file_bytes(g, (2, 2, 2), [[]] * 3, [])).known.described().replace(b"2 2 2", b"%d %d %d" % n)

    def map_file(self):
        return map_head(self.g, self.n, self.lists) + bytes(4 * planes(self.g, self.n) * self.n[0] * self.n[1])


def cell_of(case):
    return (case.g, case.n) if isinstance(case, Empty) else (case.known.g, case.known.n)


def said_of(case):
    """How a file ends that enters no lane, and what is said; nothing of one that enters."""
    if isinstance(case, Empty):
        return None
    if case.unread:
        return "unread", b"cannot read: " + case.unread
    if case.refusal:
        return "refused", b"refused %d at %d" % case.refusal
    if case.kind != "factor file":
        return "unread", OF_MAP if case.kind == "map file" else COMBINED_POWER
    return None


def described(case):
    if isinstance(case, Empty):
        return case.described
    return case.known.described() if case.known else b""


class Lanes:
    """What becomes of a list of files: the lane of each that is finished, its turns and the most that there can be; and what is printed, how each
    ends and its line."""

    def __init__(self, found, folder):
        self.rest, self.waiting, self.folder, self.finished, self.told = list(found), [], folder, [], []
        self.lanes, self.last, self.turns = [None] * LANES, 0, 0
        self.fill()
        while any(self.lanes):
            self.turn()

    def room(self, case):
        return sum(volume_length(*cell_of(lane[0])) for lane in self.lanes if lane) + volume_length(*cell_of(case)) <= LIMIT

    def enter(self, case):
        self.lanes[self.lanes.index(None)] = [case, lines_of(*cell_of(case)), self.turns]

    def fill(self):
        for case in list(self.waiting):
            if None in self.lanes and self.room(case):
                self.waiting.remove(case)
                self.enter(case)
        while None in self.lanes and len(self.waiting) < MOST_WAITING and self.rest:
            case = self.rest.pop(0)
            if said_of(case):
                self.tell(case, *said_of(case))
            elif self.room(case):
                self.enter(case)
            else:
                self.waiting.append(case)

    def turn(self):
        """A line of the next lane that runs."""
        self.turns += 1
        at = next(at % LANES for at in range(self.last, self.last + LANES) if self.lanes[at % LANES])
        self.last, lane = at + 1, self.lanes[at]
        lane[1] -= 1
        if lane[1] == 0:
            self.lanes[at] = None
            case, _, before = lane
            to = escaped(os.path.join(self.folder, target(case)))
            counts = (at + 1, self.turns - before, 8 * lines_of(*cell_of(case)))
            self.finished.append((case, *counts))
            self.tell(case, "written", b"lane %d, %d turns of at most %d, written to %s" % (*counts, to))
            self.fill()

    def tell(self, case, end, said):
        self.told.append((end, b"%s: %s%s\n" % (escaped(case.path), described(case), said)))


def summed(ends, words=tuple(ENDS)):
    counts = ", ".join("%d %s" % (ends.count(word), word) for word in words)
    return ("%d file%s: %s\n" % (len(ends), "" if len(ends) == 1 else "s", counts)).encode()


def run(tool, what, found, folder, **more):
    """Runs a list of files, and compares all that is printed; then the files that are written."""
    told = Lanes(found, folder).told
    ends = [end for end, _ in told]
    status, out, err = tool.run("lanes", *[case.path for case in found], "--to", folder, **more)
    got = out.splitlines(True)
    tool.expect(what + ": the count of lines", len(got), len(told) + 1)
    for line, (_, want) in zip(got, told):
        tool.expect(what, line, want)
        counts = re.search(rb", lane [1-8], (\d+) turns of at most (\d+), ", line)
        tool.expect(what + ": within the bound", counts is None or int(counts[1]) <= int(counts[2]), True)
    tool.expect(what + ": the last line", got[-1:], [summed(ends)])
    tool.expect(what + ": status and standard error", (status, err), (status_of(ends), b""))
    wrote(tool, folder, {target(case): case.map_file() for case in found if not said_of(case)})


# ---- lists of small files

def lists(tool, found):
    """All files at once; some of them in any order; as many equal files as there are lanes, and one alone."""
    rng = random.Random(SEED)
    sound = [case for case in found if not said_of(case)]
    others = [case for case in found if said_of(case)]
    run(tool, "all files", found, tool.path("all"))
    for count in (1, 2, 7, 8, 9, 16, 17, 40):
        part = rng.sample(sound, min(count, len(sound)))
        run(tool, "%d files" % count, part, tool.path("sound %d" % count))
        part = part + rng.sample(others, min(count, len(others)))
        rng.shuffle(part)
        run(tool, "%d files and as many others" % count, part, tool.path("mixed %d" % count))
    as_map_does(tool, sound)
    equal(tool, sound)


def as_map_does(tool, sound):
    """The same bytes as those of map --to."""
    words = [case.path for case in sound]
    tool.expect("map --to", tool.run("map", *words, "--to", tool.path("by map"))[0], 0)
    tool.expect("lanes", tool.run("lanes", *words, "--to", tool.path("by lanes"))[0], 0)
    tool.expect("the maps of lanes and of map --to", contents_in(tool.path("by lanes")), contents_in(tool.path("by map")))


def equal(tool, sound):
    """Equal files: the one in lane 8 has all of its 8 n turns, and one alone has n."""
    case = max(sound, key=lambda case: lines_of(*cell_of(case)))
    n = lines_of(*cell_of(case))
    os.mkdir(tool.path("equals"))
    for count in (1, 8, 11):
        part = [Case(tool.file("equals/%d %d.x" % (count, place), case.contents), case.contents) for place in range(count)]
        run(tool, "%d equal files" % count, part, tool.path("equal %d" % count))
        turns = [counts for _, *counts in Lanes(part, "x").finished]
        want = {1: [[1, n, 8 * n]], 8: [[lane, 8 * n - 8 + lane, 8 * n] for lane in range(1, 9)]}
        tool.expect("%d equal files: their turns" % count, turns, want.get(count, turns))


# ---- cells that have to wait

def waiting(tool, found):
    """Large empty cells, of which two have no room together: they wait, and what is behind goes ahead, until eight wait."""
    small = [case for case in found if not said_of(case)][:3]
    large = lambda name, length, fs: Empty(tool, name, 0, (length,) * 3, [fs] * 3)
    of_240 = [large("a%d.factors" % place, 240, [4, 5, 3, 2]) for place in range(2)]
    part = [of_240[0], small[0], of_240[1], small[1], small[2]]
    tool.expect("two of them have no room", 2 * volume_length(0, (240,) * 3) > LIMIT, True)
    run(tool, "a cell that waits", part, tool.path("waits"))
    last = Lanes(part, "x").told[-1][1]
    tool.expect("the cell that waited comes last", last.startswith(escaped(of_240[1].path)), True)
    of_144 = [large("b%d.factors" % place, 144, [4, 3, 3, 2]) for place in range(MOST_WAITING + 1)]
    part = [of_240[0], *of_144, small[0]]
    memory = LIMIT + volume_length(0, (144,) * 3)
    run(tool, "nine cells that wait", part, tool.path("nine wait"), preexec_fn=bounded(memory))
    tool.expect("one for which there is no memory", tool.run("lanes", of_240[0].path, small[0].path, "--to", tool.path("no memory"),
                                                             preexec_fn=bounded(volume_length(0, (144,) * 3)))[0], 2)
    wrote(tool, tool.path("no memory"), {target(small[0]): small[0].map_file()})


# ---- signals

def signals(tool, found):
    """At random moments: what is finished is whole, the old files of the others stay, and what was in the lanes is told as withdrawn."""
    rng = random.Random(SEED)
    small = [case for case in found if not said_of(case)][:12]
    large = Empty(tool, "c.factors", 0, (240,) * 3, [[4, 5, 3, 2]] * 3)
    part = [large, *small]
    words = [tool.program, "lanes", *[case.path for case in part], "--to"]
    began = time.monotonic()
    told = Lanes(part, tool.path("whole")).told
    tool.expect("all of them", subprocess.run([*words, tool.path("whole")], stdout=subprocess.PIPE, check=False).stdout,
                b"".join(line for _, line in told) + summed([end for end, _ in told]))
    took, withdrawn = time.monotonic() - began, 0
    for turn, number in enumerate([signal.SIGTERM, signal.SIGINT] * SIGNALS + [signal.SIGHUP] * 2):
        folder = tool.path("signal %d" % turn)
        os.mkdir(folder)
        for case in part:
            tool.file(os.path.join(folder, target(case)), b"old")
        with subprocess.Popen([*words, folder], stdout=subprocess.PIPE, stderr=subprocess.PIPE) as running:
            time.sleep(rng.uniform(0, took))
            running.send_signal(number)
            if turn % 4 == 3:
                running.send_signal(number)
            out, err = running.communicate()
        withdrawn += compare_stopped(tool, part, folder, number, turn % 4 == 3, (running.returncode, out, err))
    tool.expect("a signal that withdrew a lane", withdrawn > 0, True)


def compare_stopped(tool, part, folder, number, twice, got):
    """How many lanes were withdrawn. A signal may come before the tool is ready for it, or too late, and a second one before the last lines."""
    status, out, err = got
    lines, told = out.splitlines(True), Lanes(part, folder).told
    written = [line for line in lines if b", written to " in line]
    tool.expect("signal %d: standard error" % number, err, b"")
    tool.expect("signal %d: the lines before it" % number, written, [line for _, line in told[:len(written)]])
    got = contents_in(folder)
    names = {line.split(b": ")[0] for line in written}
    want = {target(case): case.map_file() if escaped(case.path) in names else b"old" for case in part}
    tool.expect("signal %d: the files" % number, sorted(got), sorted(want))
    for case in part:
        whole = [want[target(case)]] + ([case.map_file()] if twice else [])
        tool.expect("signal %d: a file" % number, got.get(target(case)) in whole, True)
    if status == 0:
        tool.expect("signal %d came too late" % number, len(written), len(part))
        return 0
    tool.expect("signal %d: the status" % number, status, -number)
    withdrawn = re.findall(rb"(?m)^.*, lane [1-8], withdrawn after \d+ turns$", out)
    if not twice and lines:
        left = len(part) - len(written) - len(withdrawn)
        ends = ["written"] * len(written) + ["withdrawn"] * len(withdrawn) + ["not entered"] * left
        tool.expect("signal %d: the last line" % number, lines[-1], summed(ends, ENDS + ["withdrawn", "not entered"]))
        tool.expect("signal %d: the count of lines" % number, len(lines), len(written) + len(withdrawn) + 1)
    return len(withdrawn)


# ---- what is wrong, and what reads along

def wrong(tool, found):
    """Wrong command lines write nothing and make no folder; folders that cannot be made; a file that cannot be written; nobody who reads."""
    first, second, third = [case for case in found if not said_of(case)][:3]
    none = tool.path("none")
    for words, part in (((), b"nothing; it takes FILE.."), (("--to", none), b"nothing; it takes FILE.."), ((first.path,), b"lanes needs --to"),
                        ((first.path, "--to"), b"needs the name of a folder"), ((first.path, "--to", none, "--to", none), b"given twice"),
                        ((first.path, "--to", none, "-o", "x"), b"lanes takes no -o; it takes --to alone"), (("-", "--to", none), b"has no name of its own"),
                        ((first.path, first.path, "--to", none), b"would both be written to")):
        tool.fails("lanes %s" % (words,), ("lanes", *words), part)
        tool.fails("lanes %s" % (words,), ("lanes", *words), b"--help")
        tool.expect("no folder is made", os.path.exists(none), False)
    for folder, part in ((first.path, b"cannot write"), (tool.path("no/where"), b"make its folder first")):
        tool.fails("a folder that cannot be made", ("lanes", second.path, third.path, "--to", folder), part)
    blocked = tool.path("blocked")
    os.makedirs(os.path.join(blocked, target(second)))
    status, out, err = tool.run("lanes", first.path, second.path, third.path, "--to", blocked)
    said = b"%s: %scannot write: Is a directory (os error 21)\n" % (escaped(second.path), second.known.described())
    last = summed(["written", "written", "unwritten"])
    tool.expect("a file that cannot be written", (status, said in out, out.splitlines(True)[-1], err), (2, True, last, b""))
    os.rmdir(os.path.join(blocked, target(second)))
    wrote(tool, blocked, {target(case): case.map_file() for case in (first, third)})
    reading, writing = os.pipe()
    os.close(reading)
    got = tool.run("lanes", first.path, second.path, "--to", tool.path("closed"), stdout=writing)
    os.close(writing)
    tool.expect("a closed pipe", got, (0, None, b""))
    wrote(tool, tool.path("closed"), {target(case): case.map_file() for case in (first, second)})
    with open("/dev/full", "wb") as full:
        tool.fails("a full output", ("lanes", first.path, second.path, "--to", tool.path("full")), b"make room", stdout=full)


def terminal(tool):
    """On a terminal it is told how far each lane has come, and nothing of it stays."""
    part = [Empty(tool, "d%d.factors" % place, 0, (160,) * 3, [[4, 5, 4]] * 3) for place in range(3)]
    seconds = rb" in \d+\.\d s *"
    told = rb"(?:(?:\r(?:lane \d \d+ %(?:, lane \d \d+ %)*" + seconds + rb"|(?:reading|writing): (?:\d+ % in )?\d+\.\d s *))+\r +\r)+"
    ours, theirs = pty.openpty()
    words = [tool.program, "lanes", *[case.path for case in part], "--to", tool.path("terminal")]
    with subprocess.Popen(words, stdout=subprocess.DEVNULL, stderr=theirs) as running:
        os.close(theirs)
        said = b""
        try:
            while more := os.read(ours, 4096):
                said += more
        except OSError:
            pass  # a terminal whose other end is closed
        all_three = re.search(rb"\rlane 1 \d+ %, lane 2 \d+ %, lane 3 \d+ % in ", said) is not None
        tool.expect("progress", (running.wait(), all_three, said if not re.fullmatch(told, said) else True), (0, True, True))
    os.close(ours)


def test(tool):
    found = cases(tool)
    lists(tool, found)
    wrong(tool, found)
    waiting(tool, found)
    signals(tool, found)
    terminal(tool)


if __name__ == "__main__":
    tested(test)
