"""Planes as pages and as pictures: what `recorder section` prints and `recorder picture` draws, the latter pixel by pixel. The tool that is
tested keeps the letters of pictures that were seen, in `glyphs`."""
import zlib

from brute_force import number
from section_cases import page

MARGIN, BAR, ADVANCE, TEXT = 12, 20, 12, 14
LEFT, TOP = MARGIN + ADVANCE, MARGIN + TEXT + MARGIN // 2


def plane(tool, what, path, z, rows):
    """Plane z as a page, printed and written, and as a picture."""
    what = "%s: plane %d" % (what, z)
    drawn, laid = tool.path("plane.png"), tool.path("plane.txt")
    tool.expect(what, tool.run("section", path, z), (0, page(rows), b""))
    tool.expect(what + ", to a file", (tool.run("section", path, z, "-o", laid), open(laid, "rb").read()), ((0, b"", b""), page(rows)))
    tool.expect(what + " as a picture", tool.run("picture", path, z, "-o", drawn), (0, b"", b""))
    picture(tool, what, open(drawn, "rb").read(), z, rows)


def shown_in(png):
    """The rows of a grey picture, a byte for each pixel. Lengths and sums of all parts are compared."""
    assert png[:8] == b"\x89PNG\r\n\x1a\n"
    parts, at = [], 8
    while at < len(png):
        length = number(png[at:at + 4])
        name, data = png[at + 4:at + 8], png[at + 8:at + 8 + length]
        assert number(png[at + 8 + length:at + 12 + length]) == zlib.crc32(name + data)
        parts.append((name, data))
        at += 12 + length
    assert [name for name, _ in parts] == [b"IHDR", b"IDAT", b"IEND"] and at == len(png) and parts[0][1][8:] == bytes([8, 0, 0, 0, 0])
    width, height = number(parts[0][1][:4]), number(parts[0][1][4:8])
    data = zlib.decompress(parts[1][1])
    assert len(data) == height * (width + 1) and set(data[::width + 1]) == {2}
    rows, above = [], bytes(width)
    for q in range(0, len(data), width + 1):
        above = bytes((less + up) % 256 for less, up in zip(data[q + 1:q + 1 + width], above))
        rows.append(bytearray(above))
    return rows


def cut_out(rows, left, top, width, height):
    """A part of a picture, which is white there afterwards."""
    part = [bytes(row[left:left + width]) for row in rows[top:top + height]]
    for row in rows[top:top + height]:
        row[left:left + width] = b"\xff" * width
    return part


def framed(tool, what, rows, left, top, width, height):
    """A part of a picture inside its frame."""
    part = cut_out(rows, left - 1, top - 1, width + 2, height + 2)
    black = bytes(width + 2)
    tool.expect(what + ", its frame", (part[0], part[-1], {(row[0], row[-1]) for row in part}), (black, black, {(0, 0)}))
    return [row[1:-1] for row in part[1:-1]]


def texts(tool, what, rows, found):
    """Texts at their places: the letters are learnt from where each first stands, and are the same wherever else."""
    for left, top, text in found:
        for k, letter in enumerate(text):
            shape = cut_out(rows, left + ADVANCE * k, top, ADVANCE - 2, TEXT)
            if letter != " ":
                tool.expect("%s: the letter %s of %s" % (what, letter, text), shape, tool.glyphs.setdefault(letter, shape))


def text_width(text):
    return ADVANCE * len(text) - 2


def picture(tool, what, png, z, numbers):
    """A picture has the shade of every number, the bar, the texts, and nothing else."""
    rows = shown_in(png)
    each = max(1, min(48, 720 // max(len(numbers), len(numbers[0]))))
    least, greatest = min(map(min, numbers)), max(map(max, numbers))
    high, wide = each * len(numbers), each * len(numbers[0])
    head = max(wide, text_width("z %d" % z) + 24 + text_width("y"))
    length = max(head, text_width(str(least)) + 24 + text_width(str(greatest)))
    size = (LEFT + length + MARGIN, TOP + high + MARGIN + BAR + MARGIN // 2 + TEXT + MARGIN)
    tool.expect(what + ": the picture's size", (len(rows[0]), len(rows)), size)
    shades = [[(v - least) * 510 // max(1, greatest - least) for v in row] for row in numbers]
    want = [b"".join(bytes([(s + 1) // 2]) * each for s in row) for row in shades for _ in range(each)]
    tool.expect(what + ": the picture's shades", framed(tool, what, rows, LEFT, TOP, wide, high), want)
    bar = framed(tool, what, rows, LEFT, TOP + high + MARGIN, length, BAR)
    tool.expect(what + ": the bar", (set(bar), bar[0][0], bar[0][-1], len(set(bar[0]))), ({bytes(sorted(bar[0]))}, 0, 255, min(256, length)))
    under = TOP + high + MARGIN + BAR + MARGIN // 2
    texts(tool, what, rows, [(LEFT, MARGIN, "z %d" % z), (LEFT + head - text_width("y"), MARGIN, "y"),
                             (10, TOP + high - min(TEXT, high), "x"), (LEFT, under, str(least)),
                             (LEFT + length - text_width(str(greatest)), under, str(greatest))])
    tool.expect(what + ": white elsewhere", {bytes(row) for row in rows}, {b"\xff" * size[0]})
