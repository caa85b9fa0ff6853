"""Plane z = 0 of a factor file's map: as a picture by matplotlib where it is there, else as a page of text."""
import sys
import recorder
entry = recorder.read(sys.argv[1]).synthesis()
try:
    from matplotlib import pyplot
    pyplot.imshow(entry.map().plane(0), cmap="gray")
    pyplot.savefig("section.png")
except ImportError:
    print(entry.map().section(0), end="")
