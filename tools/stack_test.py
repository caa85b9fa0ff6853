#!/usr/bin/env python3
"""The test of what include/recorder.h says of the stack: tools/stack_need.c measures every call, and each has to stay below the header's figure.

    stack_test.py ARCHIVE

A figure that is a tenth more than the greatest need is refused too: it would tell of another library. The threads that the header advises have to
have room for the calls, for what a thread needs beside them and for a signal. Prints how many comparisons agreed; the exit status is 1 where one
did not.
"""
import os
import re
import subprocess
import sys
import tempfile

TOP = os.path.dirname(os.path.dirname(os.path.abspath(__file__)))
# What the comment says, and the calls that its figures are of; None stands for every other call.
SAID = (r"synthesis, analysis and recorder_correlate need less than ([\d,]+) bytes of stack, recorder_scheduler_turn less than ([\d,]+), recorder_line "
        r"less than ([\d,]+), the other calls of a scheduler less than ([\d,]+), every other call but one less than ([\d,]+), whatever the grid: give a "
        r"thread (\d+) KB or more\. The one is recorder_file_faults, .*? it needs less than ([\d,]+): give a thread that calls it (\d+) KB or more\.")
NAMED = [{"recorder_synthesis", "recorder_analysis", "recorder_correlate"}, {"recorder_scheduler_turn"}, {"recorder_line"},
         {"recorder_scheduler_" + call for call in ("new", "next", "enter", "withdraw")}, None, {"recorder_file_faults"}]
# For the thread itself and a signal with all registers of the machine.
BESIDE = 32 * 1024


def measured(archive):
    """The greatest need of each call."""
    need = {}
    with tempfile.TemporaryDirectory() as folder:
        program = os.path.join(folder, "stack_need")
        flags = ["-std=c99", "-O2", "-Wall", "-Wextra", "-pedantic", "-Werror", "-I" + os.path.join(TOP, "include"), "-o", program]
        subprocess.run(["gcc", *flags, os.path.join(TOP, "tools/stack_need.c"), archive, "-lpthread"], check=True)
        for line in subprocess.run([program], stdout=subprocess.PIPE, check=True).stdout.decode().splitlines():
            name, taken = line.split()
            need[name] = max(int(taken), need.get(name, 0))
    return need


def main():
    if len(sys.argv) != 2:
        sys.exit("usage: stack_test.py ARCHIVE")
    with open(os.path.join(TOP, "include/recorder.h"), encoding="utf-8") as header:
        text = header.read()
    said = re.search(SAID, " ".join(text.split()))
    if not said:
        sys.exit("include/recorder.h does not say the stack as this test reads it")
    transform, turn, line, scheduler, other, thread, faults, faults_thread = (int(figure.replace(",", "")) for figure in said.groups())
    need = measured(sys.argv[1])
    others = set(need) - set.union(*(names for names in NAMED if names))
    declared = set(re.findall(r"(?m)^\w+ (recorder_\w+)\(", text))
    compared = [("every call is measured", declared == set(need))]
    for names, figure in zip(NAMED, (transform, turn, line, scheduler, other, faults)):
        greatest = max(need[name] for name in names or others)
        compared += [("%s needs %d, the header says less than %d" % (name, need[name], figure), need[name] < figure) for name in names or others]
        compared.append(("the greatest need is %d, the header says less than %d" % (greatest, figure), names is None or figure < 1.1 * greatest))
    for figure, advised in ((transform, thread), (faults, faults_thread)):
        compared.append(("a thread of %d KB for %d bytes" % (advised, figure), figure + BESIDE <= 1024 * advised))
    wrong = [words for words, agrees in compared if not agrees]
    print("".join(words + "\n" for words in wrong) + "%d comparisons agree, %d do not" % (len(compared) - len(wrong), len(wrong)))
    sys.exit(1 if wrong else 0)


if __name__ == "__main__":
    main()
