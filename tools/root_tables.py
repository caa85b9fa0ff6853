#!/usr/bin/env python3
"""The constant tables of the root's powers and half tangents, as src/powers.rt and src/half_tangents.rt of crates/roots have them.

    python3 tools/root_tables.py powers          prints the four arrays at the end of powers.rt
    python3 tools/root_tables.py half_tangents   prints the two arrays at the end of half_tangents.rt

For each prime p = 2,880 c - 1: r = ((a + i)/(a - i))^c for the least a from 1 upward for which r has order 2,880 and
r^720 = -i, the real and the imaginary parts of r^k for k < 2,880, and the half tangents d/(1 + c) of r^k = c + d i for
k < 1,440. Nothing that is proved leans on this program: the proofs test the numbers that stand in the source.
"""

import sys

ORDER = 2880
PRIMES = [86399, 302399]
IN_A_LINE = 14  # no divisor of 720, so that no line stands in two tables: d at place k is c at place k + 720


def times(p, x, y):
    return (x[0] * y[0] - x[1] * y[1]) % p, (x[0] * y[1] + x[1] * y[0]) % p


def powers(p, x, n):
    """The powers 0 to n - 1 of x."""
    row = [(1, 0)]
    while len(row) < n:
        row.append(times(p, row[-1], x))
    return row


def quotient(p, a):
    """(a + i)/(a - i) = (a + i)^2/(a^2 + 1)."""
    return times(p, times(p, (a, 1), (a, 1)), (pow(a * a + 1, -1, p), 0))


def root(p):
    exponent = (p + 1) // ORDER
    a = 1
    while True:
        r = powers(p, quotient(p, a), exponent + 1)[exponent]
        row = powers(p, r, ORDER)
        if row[720] == (0, p - 1) and (1, 0) not in row[1:]:
            return r
        a += 1


def array(name, numbers):
    lines = [numbers[at : at + IN_A_LINE] for at in range(0, len(numbers), IN_A_LINE)]
    body = "\n".join("    " + ", ".join(map(str, line)) + "," for line in lines)
    return f"#[rattlefmt::skip]\nconst {name}: [u32; {len(numbers)}] = [\n{body}\n];\n"


def main():
    tables = sys.argv[1:]
    if tables not in (["powers"], ["half_tangents"]):
        sys.exit("usage: root_tables.py powers | half_tangents")
    arrays = []
    for number, p in enumerate(PRIMES, 1):
        row = powers(p, root(p), ORDER)
        if tables == ["powers"]:
            arrays.append(array(f"REAL_{number}", [c for c, d in row]))
            arrays.append(array(f"IMAGINARY_{number}", [d for c, d in row]))
        else:
            arrays.append(array(f"TANGENT_{number}", [d * pow(1 + c, -1, p) % p for c, d in row[: ORDER // 2]]))
    print("\n".join(arrays), end="")


if __name__ == "__main__":
    main()
