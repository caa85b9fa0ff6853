#!/usr/bin/env python3
"""The interface test: include/recorder.h against the functions that crates/exported_c exports, and the declarations of the tool, host/src/ffi.rs, and
of the Python package, python/recorder/declarations.py, against include/recorder.h.

    interface_test.py [HEADER SOURCE FFI PYTHON]

Every function of the header must be one of the source and the other way round, with the same types in the same order; every struct must have
the same fields, every refusal its number. The tool's declarations must be those of the header. (The layouts in bytes are held to a C compiler's by `cargo test` in host/.)
So must be those of the Python package, which also has the header's words for refusals, its named numbers and its version, and calls every function.
Prints what differs; the exit status is 1 where anything does. It then damages each of the four texts in turn and demands to notice it.
"""
import ctypes
import glob
import os
import re
import sys

TOP = os.path.join(os.path.dirname(os.path.abspath(__file__)), "..")
FILES = ["include/recorder.h", "crates/exported_c/src/lib.rt", "host/src/ffi.rs", "python/recorder/declarations.py"]
# What the source passes on: the version, the structs of jobs, of schedulers, of their answers and of a unit cell, and the numbers of refusals.
PASSED_ON = ["crates/exported/src/lib.rt", "crates/job/src/lib.rt", "crates/scheduler/src/lib.rt", "crates/exported/src/answers.rt",
             "crates/exported/src/lanes.rt", "crates/exported/src/cells.rt", "crates/refusals/src/lib.rt"]

# The names of the header's types in the Rattle source and in the tool.
SOURCE_NAMES = {"Reflection": "recorder_reflection", "GridPoint": "recorder_grid_point", "Axis": "recorder_axis", "Job": "recorder_job",
                "CellCoded": "recorder_cell", "JobCoded": "recorder_answer", "FileCoded": "recorder_file_answer", "FaultsCoded": "recorder_faults",
                "HeaderCoded": "recorder_header", "LengthCoded": "recorder_length", "CountCoded": "recorder_combined_density",
                "WriteCoded": "recorder_write_answer", "PointCoded": "recorder_density", "FactorCoded": "recorder_factor_value",
                "PowerCoded": "recorder_power", "Lane": "recorder_lane", "Scheduler": "recorder_scheduler", "NextCoded": "recorder_next_answer",
                "LaneCoded": "recorder_scheduler_answer", "TurnCoded": "recorder_turn_answer"}
FFI_NAMES = {"Reflection": "recorder_reflection", "GridPoint": "recorder_grid_point", "Axis": "recorder_axis", "Job": "recorder_job",
             "UnitCell": "recorder_cell", "Answer": "recorder_answer", "FileAnswer": "recorder_file_answer", "Faults": "recorder_faults",
             "FileHeader": "recorder_header", "Length": "recorder_length", "CombinedDensity": "recorder_combined_density",
             "WriteAnswer": "recorder_write_answer", "Density": "recorder_density", "FactorValue": "recorder_factor_value",
             "Power": "recorder_power", "Lane": "recorder_lane", "Scheduler": "recorder_scheduler", "NextAnswer": "recorder_next_answer",
             "SchedulerAnswer": "recorder_scheduler_answer", "TurnAnswer": "recorder_turn_answer"}
# A struct that lacks the mark is not found, and so differs.
LAID_OUT = r"#\[repr\(C\)\]\s*(?:#\[derive\([^)]*\)\]\s*)?"
NUMBERS = {"u8": "uint8_t", "u32": "uint32_t", "i32": "int32_t", "u64": "uint64_t", "i64": "int64_t", "f32": "float", "usize": "size_t"}


def read(name):
    with open(os.path.join(TOP, name), encoding="utf-8") as text:
        return text.read()


def without_comments(text):
    return re.sub(r"/\*.*?\*/|//[^\n]*", "", text, flags=re.S)


def words(text):
    return " ".join(text.split())


def parts(text):
    return [words(part) for part in text.split(",") if part.strip()]


# ---- C: a declaration 'type name' with the star at the name

def c_type(declaration):
    return words(re.sub(r"\w+$", "", declaration).replace("*", " * "))


def c_structs(text):
    found = {}
    for body, name in re.findall(r"typedef struct \{(.*?)\}\s*(\w+);", text, re.S):
        fields = []
        for line in filter(str.strip, body.split(";")):
            first, *others = parts(line)
            kind, field = first.rsplit(" ", 1)
            several = re.fullmatch(r"(\w+)(\[\d+\])", field)
            fields += [(several[1], kind + several[2]) if several else (field, kind)] + [(other, kind) for other in others]
        found[name] = fields
    return found


def c_functions(text):
    return {name: ([c_type(p) for p in parts(taken) if p != "void"], given)
            for given, name, taken in re.findall(r"^(\w+) (recorder_\w+)\((.*?)\);", text, re.S | re.M)}


def c_refusals(text):
    return dict(re.findall(r"RECORDER_REFUSED_(\w+) = (\d+)", text))


# ---- Rattle and Rust: 'name: type'

def source_refusals(text):
    """The numbers of the refusals that calls give, by their names as the header writes them."""
    return {re.sub(r"(?<=.)(?=[A-Z])", "_", name).upper(): value for name, value in re.findall(r"Refusal::(\w+) => (\d+)", text)}


def named_type(kind, names):
    """The C types that a type is passed as."""
    if kind in NUMBERS:
        return [NUMBERS[kind]]
    lent = re.fullmatch(r"&(mut )?\[(\w+)\]", kind)
    if lent:
        return [("" if lent[1] else "const ") + NUMBERS[lent[2]] + " *", "size_t"]
    pointer = re.fullmatch(r"\*(const|mut) (\w+)", kind)
    if pointer:
        return [("const " if pointer[1] == "const" else "") + NUMBERS[pointer[2]] + " *"]
    several = re.fullmatch(r"\[(\w+); (\d+)\]", kind)
    if several:
        return [named_type(several[1], names)[0] + "[%s]" % several[2]]
    return [names.get(kind, "unknown type " + kind)]


def typed(declaration, names):
    name, kind = declaration.split(":")
    return name.strip().removeprefix("pub "), named_type(kind.strip(), names)


def named_structs(text, names):
    found = {}
    for name, body in re.findall(LAID_OUT + r"pub struct (\w+) \{(.*?)\n\}", text, re.S):
        fields = [typed(field, names) for field in parts(body)]
        found[names.get(name, name)] = [(field, kinds[0]) for field, kinds in fields]
    return found


def named_functions(text, pattern, names):
    found = {}
    for name, taken, given in re.findall(pattern, text, re.S):
        kinds = [kind for p in parts(taken) for kind in typed(p, names)[1]]
        found[name] = (kinds, named_type(given, names)[0])
    return found


# ---- Python: what its declarations are once they are run

class Declared:
    """The structs, functions and numbers of the Python package by the header's names, from the text of its declarations."""

    def __init__(self, text):
        self.found = {"__name__": "declarations"}
        exec(compile(text, "declarations", "exec"), self.found)
        self.named = {kind: name for name, kind in self.found["STRUCTS"].items()}
        for rust, c in NUMBERS.items():
            kind = {"usize": "size_t", "f32": "float"}.get(rust, {"u": "uint", "i": "int"}.get(rust[0], "") + rust[1:])
            self.named.setdefault(getattr(ctypes, "c_" + kind), c)
        # ctypes has one type for size_t and for the whole number of its size
        self.named[ctypes.c_size_t] = "size_t"

    def kind(self, kind):
        if issubclass(kind, ctypes.Array):
            return "%s[%d]" % (self.kind(kind._type_), kind._length_)
        return self.named.get(kind, "unknown type %s" % kind.__name__)

    def passed(self, kind):
        """The C types that a parameter is passed as; places are the only lent numbers of their size without a sign."""
        if not isinstance(kind, self.found["Lent"]):
            return [self.kind(kind)]
        element = "uint64_t" if kind.element is ctypes.c_uint64 else self.kind(kind.element)
        return [("" if kind.written else "const ") + element + " *", "size_t"]

    def structs(self):
        return {name: [(field, self.kind(kind)) for field, kind in struct._fields_] for name, struct in self.found["STRUCTS"].items()}

    def functions(self):
        calls = self.found["CALLS"].items()
        return {name: ([c for kind in takes.values() for c in self.passed(kind)], self.kind(gives)) for name, (gives, takes) in calls}

    def parameters(self):
        """The names of the parameters; a buffer's count is not named here."""
        return {name: list(takes) for name, (_, takes) in self.found["CALLS"].items()}

    def refusals(self):
        return {entry.name: (str(entry.value), self.found["WORDS"].get(entry.value)) for entry in self.found["Refusal"]}

    def numbers(self):
        """Every other named number, by the header's name for it."""
        found = {name: self.found[name] for name in PLAIN_NUMBERS}
        found.update({"PRIME_%d" % modulus: prime for modulus, prime in self.found["PRIMES"].items()})
        found.update({"MODULUS_%d" % modulus: modulus for modulus in self.found["PRIMES"]})
        for name, prefix in (("Group", ""), ("Kind", ""), ("Direction", ""), ("State", ""), ("Opening", "OPEN_")):
            found.update({prefix + entry.name: entry.value for entry in self.found[name]})
        return found


PLAIN_NUMBERS = ["VERSION", "LONGEST", "MOST_NUMBERS", "SCRATCH", "LONGEST_WINDOW", "GREATEST_EXACT", "GREATEST_COMBINED", "MRC_HEADER", "LANES"]


def c_numbers(text):
    """The header's named numbers but those of answers."""
    found = re.findall(r"RECORDER_(?!REFUSED_|ACCEPTED)(\w+)(?: = | (?:INT64_C\()?)(\d+)", text)
    return {name: int(value) for name, value in found}


def c_parameters(text):
    """The names of a function's parameters, but those of counts behind a pointer."""
    found = {}
    for name, taken in re.findall(r"^\w+ (recorder_\w+)\((.*?)\);", text, re.S | re.M):
        named = [p for p in parts(taken) if p != "void"]
        found[name] = [re.search(r"\w+$", p)[0] for q, p in enumerate(named) if q == 0 or "*" not in named[q - 1]]
    return found


def c_spoken(header):
    """The words that recorder_words gives for each refusal."""
    return dict(re.findall(r'case RECORDER_REFUSED_(\w+): return "(.*?)";', header))


def source_version(source):
    """The number that recorder_version gives, behind its clause; the exported function passes it on."""
    return re.findall(r"fn recorder_version\(\) -> u32\s+ensures \{[^}]*\}\s*\{\s*(\d+)\s*\}", source)


def c_words(commented):
    """The refusals of the header with its words, which stand in its comments."""
    return {name: (value, said) for name, value, said in re.findall(r"RECORDER_REFUSED_(\w+) = (\d+),? +/\* (.*?) \*/", commented)}


def python_differences(header, commented, python):
    try:
        declared = Declared(python)
    except Exception as error:
        return ["the declarations of the Python package do not run: %s" % error]
    version = declared.found["VERSION"]
    dotted = "%d.%d.%d" % (version // 10000, version // 100 % 100, version % 100)
    package = {os.path.basename(name): read(name) for name in glob.glob(os.path.join(TOP, "python/recorder/*.py"))}
    called = set(re.findall(r'\b(?:call|answered)\("(recorder_\w+)"', "".join(package.values())))
    versions = {"__init__.py": re.findall('(?m)^__version__ = "(.*)"$', package["__init__.py"]),
                "pyproject.toml": re.findall('(?m)^version = "(.*)"$', read("python/pyproject.toml"))}
    return (differing("function of header and Python:", c_functions(header), declared.functions())
            + differing("parameters of header and Python:", c_parameters(header), declared.parameters())
            + differing("struct of header and Python:", c_structs(header), declared.structs())
            + differing("refusal of header and Python:", c_words(commented), declared.refusals())
            + differing("number of header and Python:", c_numbers(header), declared.numbers())
            + differing("version of header and Python:", dict.fromkeys(versions, [dotted]), versions)
            + differing("call of header and Python:", dict.fromkeys(c_functions(header), "called"), dict.fromkeys(called, "called")))


# ---- the comparisons

def differing(what, some, others):
    said = []
    for name in sorted(set(some) | set(others)):
        if some.get(name) != others.get(name):
            said.append("%s %s: %s, but %s" % (what, name, some.get(name, "missing"), others.get(name, "missing")))
    return said


def source_structs(text, structs):
    """The structs of the source; the fields of a tuple struct have no names and take the header's where their types are the same."""
    found = named_structs(text, SOURCE_NAMES)
    for name, kinds in re.findall(LAID_OUT + r"pub struct (\w+)\((.*?)\);", text, re.S):
        ours = structs.get(SOURCE_NAMES.get(name), [])
        fields = [named_type(kind.removeprefix("pub "), SOURCE_NAMES)[0] for kind in parts(kinds)]
        found[SOURCE_NAMES.get(name)] = ours if fields == [kind for _, kind in ours] else fields
    return {name: fields for name, fields in found.items() if name in SOURCE_NAMES.values()}


def differences(header, source, ffi, python):
    commented = header
    header, source, ffi = map(without_comments, (header, source, ffi))
    structs, functions = c_structs(header), c_functions(header)
    exported = named_functions(source, r'#\[unsafe\(no_mangle\)\]\s*pub extern "C" fn (\w+)\((.*?)\)\s*->\s*(\w+)', SOURCE_NAMES)
    declared = named_functions(ffi, r"\n    fn (recorder_\w+)\((.*?)\)\s*->\s*(\w+);", FFI_NAMES)
    said = [] if functions else ["no function was found"]
    said += differing("function of header and source:", functions, exported)
    said += differing("struct of header and source:", structs, source_structs(source, structs))
    said += differing("refusal of header and source:", c_refusals(header), source_refusals(source))
    said += differing("words of a refusal, where it is named and where it is told:", {name: words for name, (_, words) in c_words(commented).items()},
                      c_spoken(header))
    said += differing("version of header and source:", {"": [str(c_numbers(header).get("VERSION"))]}, {"": source_version(source)})
    said += differing("function of header and tool:", functions, declared)
    said += differing("struct of header and tool:", structs, named_structs(ffi, FFI_NAMES))
    return said + python_differences(header, commented, python)


# One small change to each text: a parameter's type, a field left out, two fields exchanged, a function under another name.
DAMAGES = [
    (0, "recorder_grid_point at,", "recorder_reflection at,"), (0, "uint32_t number, place;", "uint32_t place, number;"),
    (0, "const uint32_t *volume, size_t volume_length, uint8_t *out", "uint32_t *volume, size_t volume_length, uint8_t *out"),
    (0, "RECORDER_REFUSED_INDEX = 10,", "RECORDER_REFUSED_INDEX = 11,"), (1, "Refusal::Occupied => 24,", ""),
    (0, "uint32_t group, modulus;", "uint32_t modulus, group;"),
    (0, "recorder_job second, const uint32_t *second_map", "recorder_job second, uint32_t *second_map"),
    (1, "Refusal::DifferentCells => 27,", "Refusal::DifferentCells => 26,"), (2, "pub modulus: u32,", ""),
    (0, "uint32_t recorder_line(uint32_t modulus, ", "uint32_t recorder_line("),
    (0, "uint32_t count, first, second;", "uint32_t count, second, first;"), (1, "pub place: u32,", ""), (1, "fn recorder_analysis(", "fn recorder_analyse("),
    (1, "#[repr(C)]", ""), (1, "#[unsafe(no_mangle)]", ""), (2, "#[repr(C)]", ""),
    (0, "int64_t *least, size_t least_length", "uint64_t *least, size_t least_length"),
    (0, "uint32_t number, power;", "uint32_t power, number;"), (0, "RECORDER_REFUSED_MAGNITUDE = 28,", ""),
    (1, "fn recorder_map_power(", "fn recorder_power_of_map("), (0, "uint32_t z, uint8_t *out", "uint8_t *out"),
    (2, "map_length: usize,\n        z: u32,", "map_length: usize,"),
    (0, "float a, b, c, alpha, beta, gamma;", "float a, b, c, gamma, alpha, beta;"), (1, "pub beta: f32,", "pub beta: u32,"),
    (2, "cell: UnitCell,\n        out", "out"), (0, "const int64_t *b, size_t b_length", "int64_t *b, size_t b_length"),
    (1, "Refusal::UnitCell => 29,", "Refusal::UnitCell => 30,"),
    (0, "recorder_lane lanes[8];", "recorder_lane lanes[7];"), (1, "pub lanes: [Lane; 8],", "pub lanes: [Job; 8],"), (2, "pub last: u32,", ""),
    (0, "uint32_t number, lane, finished;", "uint32_t number, finished, lane;"), (1, "Refusal::Capacity => 32,", "Refusal::Capacity => 31,"),
    (0, "recorder_scheduler recorder_scheduler_new(void);", ""), (2, "pub finished: u32,", "pub finished: u8,"),
    (0, "const uint32_t *volume, size_t volume_length, uint32_t *scratch", "uint32_t *volume, size_t volume_length, uint32_t *scratch"),
    (2, "pub written: usize", "pub written: u32"), (2, "direction: u32,\n        length: u32,", "direction: u32,"),
    (3, '("h", c_uint32), ("k", c_uint32)', '("k", c_uint32), ("h", c_uint32)'), (3, '("density", c_int32)', '("density", c_uint32)'),
    (3, '("written", c_size_t)', '("written", c_uint32)'), (3, "Lane * LANES", "Lane * 7"), (3, "LANES = 8", "LANES = 7"), (3, "LINE_KIND = 1\n", "LINE_KIND = 11\n"),
    (3, 'READ_NUMBERS, WRITE_NUMBERS = Lent(c_uint32, False)', 'READ_NUMBERS, WRITE_NUMBERS = Lent(c_uint32, True)'),
    (3, '"run": READ_COUNTS, ', ''), (3, 'WRITE_PLACES = Lent(c_uint64, True)', 'WRITE_PLACES = Lent(c_int64, True)'),
    (3, '"at": GridPoint', '"at": Reflection'), (3, '"recorder_analysis"', '"recorder_analyse"'), (3, '"a": c_uint32, "b": c_uint32', '"b": c_uint32, "a": c_uint32'),
    (3, "MAP_HELD = 2", "MAP_HELD = 3"), (3, "SCRATCH = 11520", "SCRATCH = 11519"), (3, "VERSION = 20200", "VERSION = 20100"),
    (3, "a factor not 2 to 5", "a factor not 2 to 6"), (3, "2: 302399", "2: 302398"), (3, '("finished", c_uint32), ', ""),
    (0, "#define RECORDER_VERSION 20200", "#define RECORDER_VERSION 20201"), (1, "    20200\n", "    20100\n"),
    (0, 'return "output too short"', 'return "output too long"'), (0, "uint32_t records, numbers;", "uint32_t numbers, records;"),
    (1, "pub numbers: u32,", ""), (2, "pub length: usize,", "pub length: u32,"), (3, '("numbers", c_uint32)', '("numbers", c_size_t)'),
    (3, '"recorder_factor_list": (WriteAnswer, {"length": c_uint32, ', '"recorder_factor_list": (WriteAnswer, {'),
    (2, "fn recorder_file_length(job: Job, ", "fn recorder_file_length("), (0, "int64_t density; } recorder_combined", "int32_t density; } recorder_combined"),
    (0, "edge not finite and above 0, angle", "edge not finite, angle"), (0, "RECORDER_LANES = 8", "RECORDER_LANES = 9"),
    (0, "uint32_t recorder_line(uint32_t modulus, uint32_t kind,", "uint32_t recorder_line(uint32_t kind, uint32_t modulus,"),
]


def main():
    texts = [read(name) for name in (sys.argv[1:] or FILES)]
    texts[1] += "".join(map(read, PASSED_ON))
    said = differences(*texts)
    for line in said:
        print(line)
    for at, old, new in DAMAGES:
        damaged = [text.replace(old, new, 1) if at == place else text for place, text in enumerate(texts)]
        if damaged == texts or not differences(*damaged):
            said.append(old)
            print("not noticed: %r in the place of %r" % (new, old))
    print("interface: %d functions, %d differences" % (len(c_functions(without_comments(texts[0]))), len(said)))
    sys.exit(1 if said else 0)


if __name__ == "__main__":
    main()
