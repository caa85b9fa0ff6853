"""Jobs by brute force: what the test programs' expected output is computed with.

It works on whole cells: factors are a table over every (h, k, l), orbits are enumerated, maps are triple sums over all factors, and packed
factors are consistent if the cell read from them obeys every rule and packs to the same numbers. It never folds a line and shares no code
with the crates. What computes with residues is told the prime p, which is the first where none is named; a job and a file carry its number,
1 or 2.
"""
PRIMES = {1: 86399, 2: 302399}
P = PRIMES[1]
SCRATCH = 11520
LIMIT = 16777216


# ---- a density as it is read and printed

def signed(x, p=P):
    """Of the whole numbers that are congruent to x, the one of the least magnitude: from -43,199 to 43,199 or from -151,199 to 151,199."""
    return min((x % p + k * p for k in (-1, 0, 1)), key=abs)


# ---- values a + b i

def mul(x, y, p=P):
    return ((x[0] * y[0] - x[1] * y[1]) % p, (x[0] * y[1] + x[1] * y[0]) % p)


def neg(x, p=P):
    return (-x[0] % p, -x[1] % p)


def conj(x, p=P):
    return (x[0], -x[1] % p)


def find_root(p):
    """((a + i)/(a - i))^c, where p + 1 = 2,880 c, for the least a for which it has order exactly 2,880 and its 720th power is -i."""
    a = 1
    while True:
        n = pow(a * a + 1, p - 2, p)
        q = mul(mul((a, 1), (a, 1), p), (n, 0), p)
        r = (1, 0)
        for _ in range((p + 1) // 2880):
            r = mul(r, q, p)
        powers = [(1, 0)]
        while True:
            x = mul(powers[-1], r, p)
            if x == (1, 0) or len(powers) > 2880:
                break
            powers.append(x)
        if len(powers) == 2880 and powers[720] == (0, p - 1):
            return powers
        a += 1


ROOTS = {p: find_root(p) for p in PRIMES.values()}
ROOT = ROOTS[P]


def e(k, n, p=P):
    return ROOTS[p][2880 // n * k % 2880]


# ---- groups: an operation takes (h, k, l) to an image and the value there

def operations(g, n, p=P):
    n1, n2, n3 = n
    ops = [lambda j, v: (j, v)]
    if g == 1:
        ops.append(lambda j, v: ((-j[0] % n1, -j[1] % n2, j[2]), neg(v, p) if j[2] % 2 else v))
    if g == 2:
        ops.append(lambda j, v: ((j[0], j[1], -j[2] % n3), v))
    if g == 3:
        ops.append(lambda j, v: ((j[0], j[1], -j[2] % n3), neg(v, p) if j[0] % 2 else v))
    if g == 4:
        ops.append(lambda j, v: ((-j[0] % n1, -j[1] % n2, j[2]), neg(v, p) if (j[0] + j[2]) % 2 else v))
        ops.append(lambda j, v: ((-j[0] % n1, j[1], -j[2] % n3), neg(v, p) if (j[1] + j[2]) % 2 else v))
        ops.append(lambda j, v: ((j[0], -j[1] % n2, -j[2] % n3), neg(v, p) if (j[0] + j[1]) % 2 else v))
    return ops


def images(g, n, j, v, p=P):
    """Every image of a factor, with Friedel's rule."""
    out = []
    for op in operations(g, n, p):
        i, w = op(j, v)
        out.append((i, w))
        out.append((tuple(-c % m for c, m in zip(i, n)), conj(w, p)))
    return out


def orbit_of(g, n, j):
    """The indices of every image of a factor, rising."""
    return sorted({i for i, _ in images(g, n, j, (0, 0))})


def point_images(g, n, x):
    n1, n2, n3 = n
    out = [x]
    if g == 1:
        out.append((-x[0] % n1, -x[1] % n2, (x[2] + n3 // 2) % n3))
    if g == 2:
        out.append((x[0], x[1], -x[2] % n3))
    if g == 3:
        out.append(((x[0] + n1 // 2) % n1, x[1], -x[2] % n3))
    if g == 4:
        out.append(((n1 // 2 - x[0]) % n1, -x[1] % n2, (n3 // 2 + x[2]) % n3))
        out.append((-x[0] % n1, (n2 // 2 + x[1]) % n2, (n3 // 2 - x[2]) % n3))
        out.append(((n1 // 2 + x[0]) % n1, (n2 // 2 - x[1]) % n2, -x[2] % n3))
    return out


def planes(g, n):
    a = n[2] // 2
    return [n[2], a, a + 1, a + 1, a][g]


def volume_length(g, n):
    return 2 * planes(g, n) * n[0] * (n[1] // 2 + 1)


def all_points(n):
    return [(x, y, z) for x in range(n[0]) for y in range(n[1]) for z in range(n[2])]


# ---- where a factor stands: a list of (place, part) for k up to B; part 0 or 1; nothing for a known zero

def standing(g, n, j):
    h, k, l = j
    b1 = n[1] // 2 + 1
    a = n[2] // 2

    def pair(w):
        return 2 * ((w * n[0] + h) * b1 + k)

    if g == 0:
        return [(pair(l), 0), (pair(l) + 1, 1)]
    if g in (1, 4):
        if l == 0:
            return [(pair(0), 0)]
        if l == a:
            return [(pair(0) + 1, a % 2)]
    if g == 3 and h % 2 and l in (0, a):
        return []
    return [(pair(l), 0), (pair(l) + 1, 1)]


def stored(g, j, x, p=P):
    """The value as its line stores it: times i for an odd h of group 4."""
    return (-x[1] % p, x[0]) if g == 4 and j[0] % 2 else x


def unstored(g, j, x, p=P):
    return (x[1], -x[0] % p) if g == 4 and j[0] % 2 else x


def along_l(g, n, j, value, p=P):
    """The rule of a line: the value at (h, k, -l) from that at (h, k, l)."""
    if g == 1:
        w = conj(value, p)
        return neg(w, p) if j[2] % 2 else w
    if g == 3 and j[0] % 2:
        return neg(value, p)
    if g == 4:
        w = conj(value, p)
        return neg(w, p) if (j[0] + j[2]) % 2 else w
    return value


def read_factor(g, n, v, j, p=P):
    """A factor and the places of the numbers read."""
    h, k, l = j
    if k > n[1] // 2:
        x, places = read_factor(g, n, v, tuple(-c % m for c, m in zip(j, n)), p)
        return conj(x, p), places
    flipped = g != 0 and l > n[2] // 2
    at = (h, k, n[2] - l) if flipped else j
    parts = [0, 0]
    places = []
    for place, part in standing(g, n, at):
        parts[part] = v[place]
        places.append(place)
    x = unstored(g, at, tuple(c % p for c in parts), p)
    return (along_l(g, n, at, x, p) if flipped else x), places


def read_cell(g, n, v, p=P):
    return {j: read_factor(g, n, v, j, p)[0] for j in all_points(n)}


def pack_cell(g, n, F, p=P):
    v = [0] * volume_length(g, n)
    for h in range(n[0]):
        for k in range(n[1] // 2 + 1):
            for l in range(n[2] if g == 0 else n[2] // 2 + 1):
                for place, part in standing(g, n, (h, k, l)):
                    v[place] = stored(g, (h, k, l), F[(h, k, l)], p)[part]
    return v


def consistent(g, n, v, p=P):
    F = read_cell(g, n, v, p)
    for j in F:
        for i, w in images(g, n, j, F[j], p):
            if F[i] != w:
                return False
    return pack_cell(g, n, F, p) == v


def density_place(g, n, x):
    for i in point_images(g, n, x):
        if i[2] < planes(g, n):
            return (i[2] * n[0] + i[0]) * (n[1] + 2) + i[1]
    raise AssertionError


def read_map(g, n, v):
    return {x: v[density_place(g, n, x)] for x in all_points(n)}


def pack_map(g, n, M):
    v = []
    for z in range(planes(g, n)):
        for x in range(n[0]):
            v += [M[(x, y, z)] for y in range(n[1])] + [0, 0]
    return v


def consistent_map(g, n, v):
    M = read_map(g, n, v)
    for x in M:
        if any(M[i] != M[x] for i in point_images(g, n, x)):
            return False
    return pack_map(g, n, M) == v


def triple(n, X, sign, p=P):
    """The sum over the whole cell of X times e(+-hx/N1) e(+-ky/N2) e(+-lz/N3)."""
    terms = [(j, x) for j, x in X.items() if x != (0, 0)]
    out = {}
    for q in all_points(n):
        re = im = 0
        for j, x in terms:
            t = sum(sign * 2880 // m * a * b for a, b, m in zip(j, q, n)) % 2880
            w = ROOTS[p][t]
            re += x[0] * w[0] - x[1] * w[1]
            im += x[0] * w[1] + x[1] * w[0]
        out[q] = (re % p, im % p)
    return out


def synthesised(g, n, v, p=P):
    M = triple(n, read_cell(g, n, v, p), 1, p)
    assert all(x[1] == 0 for x in M.values())
    return pack_map(g, n, {q: x[0] for q, x in M.items()})


def analysed(g, n, v, p=P):
    part = pow(n[0] * n[1] * n[2], p - 2, p)
    F = triple(n, {x: (d, 0) for x, d in read_map(g, n, v).items()}, -1, p)
    return pack_cell(g, n, {j: mul(x, (part, 0), p) for j, x in F.items()}, p)


def power(values, p=P):
    """The sum of each value times its conjugate, a real number: over a whole map, which is real, the sum of the squares."""
    return sum(mul(x, conj(x, p), p)[0] for x in values) % p


# ---- the calls

def admitted(n):
    return 0 < n and n % 2 == 0 and 2880 % n == 0


def product(fs):
    p = 1
    for f in fs:
        p *= f
    return p


def octal(fs):
    return sum(f << (3 * i) for i, f in enumerate(fs))


def digits(x):
    out = []
    while x:
        out.append(x % 8)
        x //= 8
    return out


def residue(x, p):
    return x < p


def header_fault(g, n, lists):
    if not all(admitted(m) for m in n):
        return 3
    if not all(2 <= f <= 5 for fs in lists for f in fs):
        return 4
    if not all(product(fs) == m // 2 for fs, m in zip(lists, n)):
        return 5
    if volume_length(g, n) > LIMIT:
        return 9
    return 0


class Machine:
    """A job and the buffers that a test program keeps."""

    def __init__(self):
        self.job = [0] * 9
        self.volume = [0] * 4096
        self.length = 0
        self.lists = [[], [], []]
        self.scratch = [0] * 12032

    def checksum(self, v):
        h = 7
        for x in v:
            h = (h * 31 + x + 1) % 2147483647
        return h

    def lent(self):
        return self.volume[:self.length]

    def keep(self, v):
        self.volume[:self.length] = v

    def parts(self):
        g, m, n1, f1, n2, f2, n3, f3, s = self.job
        return g, PRIMES.get(m), (n1, n2, n3), [digits(f1), digits(f2), digits(f3)], s

    def valid(self):
        g, p, n, lists, s = self.parts()
        return g < 5 and p is not None and s < 3 and header_fault(g, n, lists) == 0

    def open(self, g, m, kind, *n):
        v = self.lent()
        if g > 4:
            return 8, 0, 0
        if m not in PRIMES:
            return 26, 0, 0
        if kind > 1:
            return 2, 0, 0
        fault = header_fault(g, n, self.lists)
        if fault:
            return fault, 0, 0
        if len(v) != volume_length(g, n):
            return 6, 0, 0
        if kind == 1:
            if not all(residue(x, PRIMES[m]) for x in v):
                return 7, 0, 0
            if not consistent_map(g, n, v):
                return 14, 0, 0
        fs = [octal(l) for l in self.lists]
        self.job = [g, m, n[0], fs[0], n[1], fs[1], n[2], fs[2], 2 if kind else 0]
        if kind == 0:
            self.keep([0] * len(v))
        return 0, 0, 0

    def record(self, h, k, l, a, b):
        g, p, n, _, s = self.parts()
        j = (h, k, l)
        if not self.valid():
            return 25, 0, 0
        if s != 0:
            return 21, 0, 0
        if any(c >= m for c, m in zip(j, n)):
            return 10, 0, 0
        if not (residue(a, p) and residue(b, p)):
            return 7, 0, 0
        orbit = images(g, n, j, (a, b), p)
        if any(i == j and w != (a, b) for i, w in orbit):
            return 12, 0, 0
        v = self.lent()
        if len(v) != volume_length(g, n):
            return 6, 0, 0
        if any(v[place] for i, _ in orbit for place in read_factor(g, n, v, i)[1]):
            return 24, 0, 0
        for i, w in orbit:
            if i[1] <= n[1] // 2 and (g == 0 or i[2] <= n[2] // 2):
                for place, part in standing(g, n, i):
                    v[place] = stored(g, i, w, p)[part]
        self.keep(v)
        return 0, 0, 0

    def work(self, scratch, wants_map):
        g, p, n, _, s = self.parts()
        if not self.valid():
            return 25, 0, 0
        if (s == 2) != wants_map:
            return (22 if wants_map else 23), 0, 0
        v = self.lent()
        if len(v) != volume_length(g, n):
            return 6, 0, 0
        if scratch < SCRATCH:
            return 13, 0, 0
        if not all(residue(x, p) for x in v):
            return 7, 0, 0
        if not (consistent_map(g, n, v) if wants_map else consistent(g, n, v, p)):
            return 14, 0, 0
        self.keep(analysed(g, n, v, p) if wants_map else synthesised(g, n, v, p))
        self.job[8] = 1 if wants_map else 2
        self.scratch[:SCRATCH] = [0] * SCRATCH
        return 0, 0, 0

    def point(self, x, y, z):
        g, p, n, _, s = self.parts()
        if not self.valid():
            return 25, 0, 0
        if s != 2:
            return 22, 0, 0
        if any(c >= m for c, m in zip((x, y, z), n)):
            return 10, 0, 0
        v = self.lent()
        if len(v) != volume_length(g, n):
            return 6, 0, 0
        d = v[density_place(g, n, (x, y, z))]
        if not residue(d, p):
            return 7, 0, 0
        return 0, signed(d, p), 0

    def factor(self, h, k, l):
        g, p, n, _, s = self.parts()
        if not self.valid():
            return 25, 0, 0
        if s == 2:
            return 23, 0, 0
        if any(c >= m for c, m in zip((h, k, l), n)):
            return 10, 0, 0
        v = self.lent()
        if len(v) != volume_length(g, n):
            return 6, 0, 0
        x, places = read_factor(g, n, v, (h, k, l), p)
        if not all(residue(v[q], p) for q in places):
            return 7, 0, 0
        return 0, x[0], x[1]

    def power(self, of_map):
        """The power of the map or of the factors over the whole cell."""
        g, p, n, _, s = self.parts()
        if not self.valid():
            return 25, 0, 0
        if (s == 2) != of_map:
            return (22 if of_map else 23), 0, 0
        v = self.lent()
        if len(v) != volume_length(g, n):
            return 6, 0, 0
        if not all(residue(x, p) for x in v):
            return 7, 0, 0
        if not (consistent_map(g, n, v) if of_map else consistent(g, n, v, p)):
            return 14, 0, 0
        return 0, power(((d, 0) for d in read_map(g, n, v).values()) if of_map else read_cell(g, n, v, p).values(), p), 0

    def write(self, room):
        """The file with one record for each orbit that has a value, at its lowest index: the refusal's number or 0, and its bytes."""
        g, p, n, lists, s = self.parts()
        if not self.valid():
            return 25, b""
        if s == 2:
            return 23, b""
        v = self.lent()
        if len(v) != volume_length(g, n):
            return 6, b""
        if not all(residue(x, p) for x in v):
            return 7, b""
        if not consistent(g, n, v, p):
            return 14, b""
        F = read_cell(g, n, v, p)
        seen = set()
        records = []
        for j in sorted(F):
            if F[j] != (0, 0) and j not in seen:
                records.append((*j, *F[j]))
                seen.update(orbit_of(g, n, j))
        file = file_bytes(g, n, lists, records, self.job[1])
        return (18, b"") if len(file) > room else (0, file)


# ---- the book: a state and F for every (h, k, l), fed the calls' arguments alone

class Book:
    """What the calls from an accepted opening on must answer, and the volume that they must leave."""

    def __init__(self, g, n, lists, modulus=1):
        self.g, self.n, self.lists, self.modulus, self.p = g, n, lists, modulus, PRIMES[modulus]
        self.state = 0
        self.F = {j: (0, 0) for j in all_points(n)}
        self.map = None

    def outside(self, j):
        return any(c >= m for c, m in zip(j, self.n))

    def record(self, h, k, l, a, b):
        j = (h, k, l)
        if self.state != 0:
            return 21, 0, 0
        if self.outside(j):
            return 10, 0, 0
        if not (residue(a, self.p) and residue(b, self.p)):
            return 7, 0, 0
        orbit = images(self.g, self.n, j, (a, b), self.p)
        if any(i == j and w != (a, b) for i, w in orbit):
            return 12, 0, 0
        if self.F[j] != (0, 0):
            return 24, 0, 0
        for i, w in orbit:
            self.F[i] = w
        self.map = None
        return 0, 0, 0

    def synthesis(self, scratch):
        if self.state == 2:
            return 23, 0, 0
        if scratch < SCRATCH:
            return 13, 0, 0
        self.state = 2
        return 0, 0, 0

    def analysis(self, scratch):
        if self.state != 2:
            return 22, 0, 0
        if scratch < SCRATCH:
            return 13, 0, 0
        self.state = 1
        return 0, 0, 0

    def densities(self):
        if self.map is None:
            sums = triple(self.n, self.F, 1, self.p)
            assert all(x[1] == 0 for x in sums.values())
            self.map = {q: x[0] for q, x in sums.items()}
        return self.map

    def point(self, x, y, z):
        if self.state != 2:
            return 22, 0, 0
        if self.outside((x, y, z)):
            return 10, 0, 0
        return 0, signed(self.densities()[(x, y, z)], self.p), 0

    def factor(self, h, k, l):
        if self.state == 2:
            return 23, 0, 0
        if self.outside((h, k, l)):
            return 10, 0, 0
        return 0, *self.F[(h, k, l)]

    def power(self, of_map):
        if (self.state == 2) != of_map:
            return (22 if of_map else 23), 0, 0
        return 0, power(((d, 0) for d in self.densities().values()) if of_map else self.F.values(), self.p), 0

    def job(self):
        fs = [octal(l) for l in self.lists]
        return [self.g, self.modulus, self.n[0], fs[0], self.n[1], fs[1], self.n[2], fs[2], self.state]

    def volume(self):
        if self.state == 2:
            return pack_map(self.g, self.n, self.densities())
        return pack_cell(self.g, self.n, self.F, self.p)


# ---- the factor file

def number(b):
    return int.from_bytes(b, "big")


def lengths_at(file):
    """Where the lengths stand: behind the group, in version 2 behind the modulus."""
    return 7 if file[4:5] == b"\2" else 6


def lengths_in(file):
    return tuple(number(file[q:q + 2]) for q in range(lengths_at(file), lengths_at(file) + 6, 2))


def modulus_in(file):
    """The modulus number of a file, which is 1 in version 1."""
    return file[6] if file[4] == 2 else 1


def open_file(file, lent):
    """The refusal's number or 0, the record's place, and the book; lent is how many numbers the volume has."""
    if len(file) < 5 or number(file[:4]) != len(file) - 4:
        return 15, 0, None
    if file[4] not in (1, 2):
        return 16, 0, None
    at = lengths_at(file) + 6
    lists = []
    for _ in range(3):
        if at >= len(file):
            return 15, 0, None
        count = file[at]
        lists.append(list(file[at + 1:at + 1 + count]))
        at += 1 + count
    if at + 4 > len(file):
        return 15, 0, None
    count = number(file[at:at + 4])
    at += 4
    if at + 14 * count != len(file):
        return 15, 0, None
    g, m, n = file[5], modulus_in(file), lengths_in(file)
    if g > 4:
        return 8, 0, None
    if m not in PRIMES:
        return 26, 0, None
    fault = header_fault(g, n, lists)
    if fault:
        return fault, 0, None
    if lent != volume_length(g, n):
        return 6, 0, None
    book = Book(g, n, lists, m)
    orbits = set()
    for place in range(count):
        r = file[at + 14 * place:at + 14 * place + 14]
        j, v = tuple(number(r[q:q + 2]) for q in (0, 2, 4)), (number(r[6:10]), number(r[10:14]))
        refused = book.record(*j, *v)[0]
        if not refused and j in orbits:
            refused = 24
        if refused:
            return refused, place, None
        orbits.update(orbit_of(g, n, j))
    return 0, 0, book


def file_bytes(g, n, lists, records, modulus=1, version=None):
    """A file: of version 1 for the first prime and of version 2 for the second, where no version is named."""
    version = modulus if version is None else version
    body = bytes([version, g]) + bytes([modulus] if version == 2 else []) + b"".join(m.to_bytes(2, "big") for m in n)
    for fs in lists:
        body += bytes([len(fs)]) + bytes(fs)
    body += len(records).to_bytes(4, "big")
    for h, k, l, a, b in records:
        body += b"".join(c.to_bytes(2, "big") for c in (h, k, l)) + a.to_bytes(4, "big") + b.to_bytes(4, "big")
    return len(body).to_bytes(4, "big") + body


def needed(file):
    """How many numbers the volume of a file has, whatever its header; where that is more than any has, one more than that."""
    part = file + bytes(13)
    return min(volume_length(part[5] % 5, lengths_in(part)), LIMIT + 1)


def first_record(file):
    """Where the records of a file of sound shape begin."""
    at = lengths_at(file) + 6
    for _ in range(3):
        at += 1 + file[at]
    return at + 4


def records_in(file):
    """The records of a file of sound shape, in its order."""
    ends = (0, 2, 4, 6, 10, 14)
    return [tuple(number(file[q + a:q + b]) for a, b in zip(ends, ends[1:])) for q in range(first_record(file), len(file), 14)]


def file_faults(file):
    """The places of the fewest records at fault: of 24 the first record of the orbit and the refused one, of any other number that one alone."""
    refused, place, _ = open_file(file, needed(file))
    if refused not in (10, 7, 12, 24):
        return []
    if refused != 24:
        return [place]
    indices = [record[:3] for record in records_in(file)]
    orbit = orbit_of(file[5], lengths_in(file), indices[place])
    return [next(q for q, j in enumerate(indices) if j in orbit), place]


def factor_lists(p):
    """Every factor list with the product p."""
    if p == 1:
        yield []
    for f in (2, 3, 4, 5):
        if p % f == 0:
            for rest in factor_lists(p // f):
                yield [f] + rest
