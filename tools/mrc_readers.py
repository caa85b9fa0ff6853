#!/usr/bin/env python3
"""Reads files in the format MRC2014 with the programs that viewers are made of, and compares what they see, number for number.

    /usr/bin/python3 tools/mrc_readers.py [PROGRAM]

The files are written by the rule of mrc_cases.py, which the proved call gives byte for byte (crates/mrc_test); where the command line tool is
named, by its `mrc` of a combined map file, and must be the same bytes. Each file is read three times: by mrcfile, whose validate holds it to the
standard, by the gemmi library, and by the command `gemmi map`. Debian has the readers: apt-get install gemmi python3-gemmi python3-mrcfile. It
runs outside the gate.
"""
import io
import os
import random
import struct
import subprocess
import sys
import tempfile

import gemmi
import mrcfile

from brute_force import pack_map, point_images
from mrc_cases import EXACT, NUMBERS, SHAPES, bits, float_of, held_point, mrc_file, volume

ANGLES = {0: (81.5, 95.25, 112.125), 1: (90, 90, 103.5), 2: (90, 90, 77.0625), 3: (90, 90, 120.5), 4: (90, 90, 90)}
EDGES = (10.5, 23.25, 41.125)


def same(what, seen, wanted):
    if seen != wanted:
        raise SystemExit(f"{what}: read {seen}, written {wanted}")


def by_mrcfile(path, n, density):
    problems = io.StringIO()
    if not mrcfile.validate(path, print_file=problems):
        raise SystemExit("mrcfile.validate: " + problems.getvalue())
    with mrcfile.open(path) as m:
        h = m.header
        same("nx ny nz", (int(h.nx), int(h.ny), int(h.nz)), n)
        same("sampling", (int(h.mx), int(h.my), int(h.mz)), n)
        same("axes", (int(h.mapc), int(h.mapr), int(h.maps)), (1, 2, 3))
        same("space group, version, mode", (int(h.ispg), int(h.nversion), int(h.mode)), (1, 20140, 2))
        same("machine stamp", bytes(h.machst), bytes([0x44, 0x44, 0, 0]))
        same("start and origin", [float(v) for v in (h.nxstart, h.nystart, h.nzstart, h.origin.x, h.origin.y, h.origin.z)], [0.0] * 6)
        least, greatest = min(density.values()), max(density.values())
        same("least, greatest, mean, RMS", [float(v) for v in (h.dmin, h.dmax, h.dmean, h.rms)], [least, greatest, least - 1, -1])
        same("labels", int(h.nlabl), 0)
        cell = [float(v) for v in (h.cella.x, h.cella.y, h.cella.z, h.cellb.alpha, h.cellb.beta, h.cellb.gamma)]
        for (x, y, z), d in density.items():
            same(f"density at {x, y, z}", float(m.data[z, y, x]), float(d))
    return cell


def by_gemmi(path, n, density):
    m = gemmi.read_ccp4_map(path)
    grid = m.grid
    same("grid", (grid.nu, grid.nv, grid.nw), n)
    for (x, y, z), d in density.items():
        same(f"density at {x, y, z}", grid.get_value(x, y, z), float(d))
    c = grid.unit_cell
    return [c.a, c.b, c.c, c.alpha, c.beta, c.gamma]


def by_command(path):
    done = subprocess.run(["gemmi", "map", path], capture_output=True, text=True)
    if done.returncode != 0 or done.stderr.strip():
        raise SystemExit("gemmi map: " + done.stdout + done.stderr)
    return done.stdout


def obeying(rng, group, n):
    """The numbers of a map that obeys its group, which the tool asks for."""
    drawn = {(x, y, z): NUMBERS[rng.choice(EXACT)] for x in range(n[0]) for y in range(n[1]) for z in range(n[2])}
    return pack_map(group, n, {x: drawn[min(point_images(group, n, x))] for x in drawn})


def by_tool(program, group, n, numbers):
    """What the tool writes of a combined map file."""
    width = n[1] + 2
    held = [number for place, number in enumerate(numbers) if place % width < n[1]]
    given = b"RCMB" + struct.pack(">2B3H", 1, group, *n) + struct.pack(">%dq" % len(held), *held)
    angles = ANGLES[group] if group == 0 else ANGLES[group][2:]
    words = [program, "mrc", "-", "--cell", ",".join(map(str, EDGES + angles)), "-o", "-"]
    return subprocess.run(words, input=given, capture_output=True, check=True).stdout


def main():
    program = sys.argv[1] if sys.argv[1:] else None
    rng = random.Random(2014)
    files = points = 0
    shown = None
    for group in range(5):
        for n in SHAPES + [(12, 16, 10), (20, 8, 24)]:
            numbers = obeying(rng, group, n) if program else [NUMBERS[c] for c in volume(rng, group, n)]
            kind = 0 if group == 0 else 1
            parameters = [bits(v) for v in EDGES + ANGLES[group]]
            written = mrc_file(group, n, numbers, kind, parameters)
            if program:
                same("the tool's bytes", by_tool(program, group, n, numbers), written)
            density = {}
            for z in range(n[2]):
                for y in range(n[1]):
                    for x in range(n[0]):
                        i, j, k = held_point(group, n, x, y, z)
                        density[x, y, z] = numbers[(k * n[0] + i) * (n[1] + 2) + j]
            with tempfile.NamedTemporaryFile(suffix=".mrc", delete=False) as f:
                f.write(written)
            try:
                wanted = [float_of(b) for b in parameters]
                same("cell by mrcfile", by_mrcfile(f.name, n, density), wanted)
                same("cell by gemmi", by_gemmi(f.name, n, density), wanted)
                shown = by_command(f.name)
            finally:
                os.unlink(f.name)
            files += 1
            points += len(density)
    print(f"{files} files, {points} densities: mrcfile {mrcfile.__version__} and gemmi {gemmi.__version__} read what was written")
    print(shown.rstrip())


if __name__ == "__main__":
    main()
