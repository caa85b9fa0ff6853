#!/usr/bin/env python3
"""What crates/plain_test must print, by direct sums.

    python3 tools/plain_expected.py > crates/plain_test/stdout

For each list, each prime and each direction: the modulus number, the direction (0 or 1), the packed list, and a checksum of the transform
X^(s) = sum over t of X(t) e(ts/n) of a line X from seed 1, or of the inverse (1/n) sum over s of Y(s) e(-ts/n) of a
line Y from seed 2. Every sum is formed term by term; the list plays no part in it. e(1/n) is r^(2880/n), where r is
found anew by the paper's rule: r = ((a + i)/(a - i))^c for the least a for which r has order 2,880 and r^720 = -i.
"""

ORDER = 2880
PRIMES = [86399, 302399]
LISTS = [
    [], [2], [3], [4], [5], [2, 3], [3, 2], [5, 3, 3], [3, 5, 3], [2, 3, 4, 2, 3], [4, 3, 3, 4], [4, 4, 4, 3, 3], [3, 5, 4, 3, 4],
    [2, 2, 2, 2, 2, 3, 3, 5], [5, 4, 4, 3, 3, 2], [2, 2, 2, 2, 2, 2, 3, 3, 5], [2, 5, 3, 4, 3, 4, 2],
]


def times(p, x, y):
    return (x[0] * y[0] - x[1] * y[1]) % p, (x[0] * y[1] + x[1] * y[0]) % p


def powers(p, x, n):
    """The powers 0 to n - 1 of x."""
    row = [(1, 0)]
    while len(row) < n:
        row.append(times(p, row[-1], x))
    return row


def roots(p):
    """The powers of r."""
    c = (p + 1) // ORDER
    a = 1
    while True:
        square = times(p, (a, 1), (a, 1))
        base = times(p, square, (pow(a * a + 1, -1, p), 0))  # (a + i)/(a - i)
        row = powers(p, powers(p, base, c + 1)[c], ORDER)
        if row[720] == (0, p - 1) and (1, 0) not in row[1:]:
            return row
        a += 1


def direct(p, row, values, sign):
    """The sums over t of X(t) e(sign ts/n), each on its own."""
    n = len(values)
    step = sign * (ORDER // n)
    result = []
    for s in range(n):
        re = im = 0
        for t, (a, b) in enumerate(values):
            c, d = row[step * t * s % ORDER]
            re += a * c - b * d
            im += a * d + b * c
        result.append((re % p, im % p))
    return result


def generated(seed, n):
    """A line of the test programs' generator."""
    x, numbers = seed, []
    for _ in range(2 * n):
        x = (x * 1103515245 + 12345) % 2147483648
        numbers.append(x // 8 % PRIMES[0])
    return list(zip(numbers[::2], numbers[1::2]))


def checksum(values):
    total = 7
    for number in (x for pair in values for x in pair):
        total = (total * 31 + number + 1) % 2147483647
    return total


def main():
    said = {}
    for factors in LISTS:
        n, packed = 1, 0
        for f in factors:
            n *= f
        for f in reversed(factors):
            packed = f + 8 * packed
        for m, p in enumerate(PRIMES, 1):
            if (m, n) not in said:
                row = roots(p)
                part = pow(n, -1, p)
                forward = direct(p, row, generated(1, n), 1)
                inverse = [(part * a % p, part * b % p) for a, b in direct(p, row, generated(2, n), -1)]
                said[m, n] = checksum(forward), checksum(inverse)
            for direction in range(2):
                print(m, direction, packed, said[m, n][direction])


if __name__ == "__main__":
    main()
