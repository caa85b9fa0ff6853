#!/usr/bin/env python3
"""The test of what makes the batches fast: in the loops over sixteen lanes the compiler has to multiply the numbers of several lines at once.

    vector_test.py ARCHIVE

Reads the machine code of the archive with objdump and counts the vector products (pmuludq) in the functions of the two crates that the loops
are in once the compiler has put their parts together: the sums of each radix, and the last reduction. A loop that the compiler no longer does
several lanes at a time breaks no proof, so nothing else would tell; the least of them has 16. It then takes the instruction out of the text and
demands to notice it. Prints how many there are; the exit status is 1 where they are too few.
"""
import re
import subprocess
import sys

PRODUCT = "pmuludq"
# Where the loops are: the sums of crate batches, which have 444 now, and the last reduction in the loops over a volume, which have 60.
LEAST = {"batches::": 430, "volume_transform::": 55}


def products(text):
    """The vector products of the functions of each crate."""
    found, crate = dict.fromkeys(LEAST, 0), None
    for line in text.splitlines():
        start = re.match(r"[0-9a-f]+ <(\w+::)?.*>:$", line)
        if start:
            crate = start.group(1)
        elif crate in found and PRODUCT in line:
            found[crate] += 1
    return found


def missing(text):
    found = products(text)
    return ["the functions of %s have %d %s, their loops need %d" % (crate, found[crate], PRODUCT, least) for crate, least in LEAST.items() if found[crate] < least]


def main():
    if len(sys.argv) != 2:
        sys.exit("usage: vector_test.py ARCHIVE")
    text = subprocess.run(["objdump", "-d", "--no-show-raw-insn", sys.argv[1]], stdout=subprocess.PIPE, check=True).stdout.decode()
    wrong = missing(text)
    if len(missing(text.replace(PRODUCT, "imul"))) != len(LEAST):
        wrong.append("loops without the instruction were not noticed")
    print("\n".join(wrong + ["%d vector products in the loops of the batches" % sum(products(text).values())]))
    sys.exit(1 if wrong else 0)


if __name__ == "__main__":
    main()
