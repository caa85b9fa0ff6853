#!/usr/bin/env python3
"""Writes maps of whole numbers with the programs that viewers are made of, for import_test.py.

    /usr/bin/python3 tools/mrc_writers.py FOLDER

By mrcfile in the modes 0, 1, 2 and 6, in both byte orders, with the axes in every order, from any index on, with an extended header; by the gemmi
library in the modes 0, 1, 2 and 6 and, by its set_extent, as parts of a cell. FOLDER/list.json has for each file its name, group, lengths and the
numbers by x, y, z, or none where it has a part of a cell. Debian has the writers: apt-get install python3-gemmi python3-mrcfile. The exit status is
3 where they are not installed.
"""
import json
import os
import random
import sys
from itertools import permutations

from brute_force import all_points, point_images

try:
    import gemmi
    import mrcfile
    import numpy
except ImportError as missing:
    print("gemmi and mrcfile are not installed:", missing)
    sys.exit(3)

MODES = {0: ("i1", 127), 1: ("i2", 32767), 2: ("f4", 43199), 6: ("u2", 43199)}
SHAPES = [(2, 2, 2), (6, 8, 4), (4, 6, 10), (12, 2, 8)]


def obeying(rng, g, n, least, greatest):
    drawn = {x: rng.randint(least, greatest) for x in all_points(n)}
    return {x: drawn[min(point_images(g, n, x))] for x in drawn}


def by_mrcfile(path, rng, n, M, mode):
    axes = rng.choice(list(permutations((0, 1, 2))))  # of columns, rows, sections
    starts = [rng.choice((0, 0, 1, -1, 3 * m + 2, -7)) for m in n]
    data = numpy.zeros([n[a] for a in reversed(axes)], dtype=rng.choice("<>") + MODES[mode][0])
    for section in range(n[axes[2]]):
        for row in range(n[axes[1]]):
            for column in range(n[axes[0]]):
                at = [0, 0, 0]
                for a, i in zip(axes, (column, row, section)):
                    at[a] = (i + starts[a]) % n[a]
                data[section, row, column] = M[tuple(at)]
    with mrcfile.new(path, overwrite=True) as m:
        m.set_data(data)
        m.header.mapc, m.header.mapr, m.header.maps = [a + 1 for a in axes]
        m.header.nxstart, m.header.nystart, m.header.nzstart = [starts[a] for a in axes]
        m.header.mx, m.header.my, m.header.mz = n
        if rng.random() < 0.5:
            m.set_extended_header(numpy.frombuffer(bytes(rng.randrange(256) for _ in range(rng.choice((4, 80, 1024)))), dtype="V1"))


def gemmi_map(g, n, M):
    m = gemmi.Ccp4Map()
    m.grid = gemmi.FloatGrid(*n)
    m.grid.set_unit_cell(gemmi.UnitCell(30, 40, 50, 90, 90, 90))
    m.grid.spacegroup = gemmi.SpaceGroup("P 1")
    for (x, y, z), number in M.items():
        m.grid.set_value(x, y, z, number)
    return m


def main():
    folder, rng, listed = sys.argv[1], random.Random(2014), []

    def add(kind, g, n, M):
        name = "%d.%s" % (len(listed), kind)
        listed.append({"name": name, "group": g, "lengths": n, "numbers": M and [M[x] for x in all_points(n)]})
        return os.path.join(folder, name)

    for g in range(5):
        for n in SHAPES:
            for mode, (kind, greatest) in MODES.items():
                least = 0 if kind[0] == "u" else -greatest
                M = obeying(rng, g, n, least, greatest)
                by_mrcfile(add("mrc", g, n, M), rng, n, M, mode)
                m = gemmi_map(g, n, M)
                m.update_ccp4_header(mode, True)
                m.write_ccp4_map(add("ccp4", g, n, M))
        m = gemmi_map(g, (6, 8, 4), obeying(rng, g, (6, 8, 4), -9, 9))
        m.update_ccp4_header(2, True)
        box = gemmi.FractionalBox()
        box.minimum, box.maximum = gemmi.Fractional(0.1, 0.1, 0.1), gemmi.Fractional(0.6, 0.7, 0.8)
        m.set_extent(box)
        m.write_ccp4_map(add("part.ccp4", g, (6, 8, 4), None))
    with open(os.path.join(folder, "list.json"), "w") as out:
        json.dump(listed, out)
    print("%d files by mrcfile %s and gemmi %s" % (len(listed), mrcfile.__version__, gemmi.__version__))


if __name__ == "__main__":
    main()
