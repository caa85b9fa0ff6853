"""The files and texts that the command line tool must write, from the factors and densities of brute_force.py."""
from brute_force import P, file_bytes, images, planes, signed


def text_of(g, n, numbers):
    """The text of a map with the numbers that it prints."""
    lines = ["map %d %d %d %d" % (g, *n)]
    for z in range(planes(g, n)):
        for x in range(n[0]):
            lines.append(" ".join(str(c) for c in [z, x] + [numbers[(x, y, z)] for y in range(n[1])]))
    return ("\n".join(lines) + "\n").encode()


def map_text(g, n, M, p=P):
    return text_of(g, n, {q: signed(x, p) for q, x in M.items()})


def map_head(g, n, lists, modulus=1, version=None):
    return b"RMAP" + file_bytes(g, n, lists, [], modulus, version)[4:-4]


def stored_points(g, n):
    """The points on the stored planes by rising z, x, y."""
    return [(x, y, z) for z in range(planes(g, n)) for x in range(n[0]) for y in range(n[1])]


def map_bytes(g, n, lists, M, modulus=1, version=None):
    return map_head(g, n, lists, modulus, version) + b"".join(M[q].to_bytes(4, "big") for q in stored_points(g, n))


def combined_bytes(g, n, numbers, version=1):
    head = b"RCMB" + bytes([version, g]) + b"".join(m.to_bytes(2, "big") for m in n)
    return head + b"".join(numbers[q].to_bytes(8, "big", signed=True) for q in stored_points(g, n))


def written(book):
    """The writer's file: a record for each orbit with a value other than zero, at its lowest index, rising."""
    found = []
    for j in sorted(book.F):
        if book.F[j] != (0, 0) and j == min(i for i, _ in images(book.g, book.n, j, book.F[j], book.p)):
            found.append((*j, *book.F[j]))
    return file_bytes(book.g, book.n, book.lists, found, book.modulus)


def records_text(found):
    return "".join("%d %d %d %d %d\n" % record for record in found).encode()


def shuffled(rng, g, n, found, p=P):
    """The same orbits in another order, each at any of its places."""
    places = [rng.choice(images(g, n, record[:3], record[3:], p)) for record in found]
    rng.shuffle(places)
    return [(*j, *v) for j, v in places]
