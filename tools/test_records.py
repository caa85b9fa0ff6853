"""What the recorder test reads and prints, and the packing of its input.

A record is eleven numbers (4 bytes each, big-endian): an operation, how many numbers of the buffer are lent as the volume, and nine more:
    0 open       group, modulus, kind, N1, N2, N3, the lengths of the three factor lists; the lists follow, 16 bytes for each
    1 file       how many bytes the file has; they follow: its records at fault are asked for, then the file is opened on a volume of sevens
    2 replay     how many numbers the script has, how many are lent as the scratch and for the answers; the script follows, six numbers a call:
                 it is replayed on the job, with a scratch of sevens and answers of nines
    3 write      how many bytes are lent as the output: the file of the job is written into an output of sevens
    4 job        group, modulus, N1, list, N2, list, N3, list, state: the job itself (lists as octal digits)
    5 fill       seed: the volume's numbers, residues of both primes, by a linear congruential generator
    6 poke       place, value: one number of the volume
A call of a script is its operation (0 record, 1 synthesis, 2 analysis, 3 point, 5 power of the map, 6 power of the factors, any other factor),
three numbers of an index or a point and two of a value.

A line is printed for each opening: the refusal's number or 0, the record's place or 0, checksums of the job and the volume; the job is
the one that goes on, for a refused file all 0s. The line before that of a file: how many of its records are at fault and their places, 0 for a
place that is not given.
For a replay: how many numbers of answers were written, checksums of the job, the volume and the scratch, then a line with every number lent for answers.
For a writing: the refusal's number or 0, how many bytes were written and a checksum of the output.
"""
import struct

OPEN, FILE, REPLAY, WRITE, JOB, FILL, POKE = range(7)


def record(operation, length, *numbers):
    return struct.pack(">11I", operation, length, *numbers, *[0] * (9 - len(numbers)))


def opening(length, group, modulus, kind, n, lists):
    return record(OPEN, length, group, modulus, kind, *n, *map(len, lists)) + b"".join(bytes(fs) + bytes(16 - len(fs)) for fs in lists)


def file(length, content):
    return record(FILE, length, len(content)) + content


def replay(length, script, scratch, answers):
    return record(REPLAY, length, len(script), scratch, answers) + struct.pack(">%dI" % len(script), *script)


def checksum(v):
    h = 7
    for x in v:
        h = (h * 31 + x + 1) % 2147483647
    return h
