"""The interface is declared four times: by the Rattle sources, include/dfb.h, Rust's ffi and Python's table. These tests read all four and
compare every exported function (name, number, order, names and types of parameters, constness, type of the answer), every constant of the
header, every refusal with its meaning, and the numbers of the headers of a snapshot and a space packet. Wrong edits of each are tried, and
must be found."""
import ctypes
import os
import re
import shutil
import tempfile
import types
import unittest

from c_program import C99, DIST, TOP, build, run

# 01, "Words and sets".
APIDS = {"E_SVY": 0x43, "V_SVY": 0x44, "MAG_SVY": 0x45, "E_B1": 0x46, "V_B1": 0x47, "SCM_B1": 0x48, "SPEC": 0x4E}
# The numbers of a snapshot's header that have a shorter name in the Rattle sources.
ITEM_NUMBERS = {"KIND": "Kind::Command", "OFFSET": "offset", "BYTES": "bytes", "A": "c.id", "B": "c.stored"}
SNAPSHOT_NAMES = {"coarse": "coarse_difference", "fine": "fine_time", "switches8": "switches_8", "switches12": "switches_12",
                  "mask": "component_mask", "total": "total_packets", "snapshot": "snapshot_number", "number": "packet_number"}


def read(*path):
    with open(os.path.join(TOP, *path), encoding="utf8") as file:
        return file.read()


def sources():
    """The text of each declaration."""
    crates = "refusal registers words board_log model listing bursts interval coarse counts snapshot summed space_packets dfb_refusals"
    crates += " dfb_board dfb_log dfb_log_c dfb_bands dfb_bursts dfb_interval dfb_coarse dfb_checker_c dfb_walk dfb_counts"
    crates += " dfb_snapshot dfb_summed dfb_space_packets"
    texts = {crate: read("crates", crate, "src", "lib.rt") for crate in crates.split()}
    texts.update(header=read("include", "dfb.h"), rust=read("rust", "src", "lib.rs"), python=read("python", "dfb.py"))
    texts.update(cargo=read("rust", "Cargo.toml"))
    return texts


def number(text):
    return int(text.replace("_", "").rstrip("u"), 0)


def one(pattern, text):
    """What the one match of a pattern has in its group."""
    found = re.findall(pattern, text)
    if len(found) != 1:
        raise ValueError("%d matches of %s" % (len(found), pattern))
    return found[0]


def capitals(name):
    """UnknownCommand as UNKNOWN_COMMAND."""
    return re.sub(r"(?<=[a-z])(?=[A-Z])", "_", name).upper()


# ---- functions: a name with the answer's type and the parameters, each a type and a name; types as in Rust ----


def parameters(text, parse):
    return [parsed for part in text.split(",") if part.strip() for parsed in parse(" ".join(part.split()))]


def c_type(text):
    names = {"float": "f32", "size_t": "usize"}
    return names.get(text) or re.sub(r"^(u?)int(\d+)_t$", lambda m: ("u" if m[1] else "i") + m[2], text)


def c_parameter(text):
    const, base, star, name = re.fullmatch(r"(const )?(\w+) (\*?)(\w+)", text).groups()
    pointer = ("*const " if const else "*mut ") if star else ""
    return [(pointer + c_type(base), name)]


def header_functions(text):
    text = re.sub(r"/\*.*?\*/", "", text, flags=re.DOTALL)
    found = re.findall(r"^(\w+) (dfb_\w+)\(([^()]*)\);", text, re.MULTILINE)
    return {name: (c_type(answer), parameters(inside, c_parameter)) for answer, name, inside in found}


def rattle_parameter(text):
    name, kind = text.split(": ")
    slice_of = re.fullmatch(r"&(mut )?\[(\w+)\]", kind)
    if slice_of is None:
        return [(kind, name)]
    return [(("*mut " if slice_of[1] else "*const ") + slice_of[2], name), ("usize", name + "_len")]


def rattle_functions(texts):
    found = [function for crate in texts if crate.startswith("dfb_")
             for function in re.findall(r'pub extern "C" fn (\w+)\(([^)]*)\) -> (\w+)', texts[crate])]
    return {name: (answer, parameters(inside, rattle_parameter)) for name, inside, answer in found}


def rust_functions(text):
    found = re.findall(r"^        pub fn (dfb_\w+)\(([^)]*)\) -> (\w+);", text, re.MULTILINE)
    return {name: (answer, parameters(inside, lambda part: [tuple(reversed(part.split(": ")))])) for name, inside, answer in found}


def python_module(text):
    module = types.ModuleType("dfb_text")
    module.__file__ = os.path.join(DIST, "dfb.py")
    exec(compile(text, "dfb.py", "exec"), module.__dict__)
    return module


def python_type(c):
    """The type as Rust names it; Python's pointers are neither const nor mut, and its size_t is its 64-bit number."""
    if hasattr(c, "contents"):
        return "*" + python_type(c._type_)
    names = {ctypes.c_uint8: "u8", ctypes.c_uint16: "u16", ctypes.c_uint32: "u32", ctypes.c_uint64: "u64", ctypes.c_int16: "i16"}
    return names.get(c) or {ctypes.c_float: "f32"}.get(c) or "unknown type " + c.__name__


def python_functions(module):
    """Of the functions that the module's own table names."""
    names = re.findall(r'^    \("(\w+)", U', module.text, re.MULTILINE)
    functions = {"dfb_" + name: getattr(module._library, "dfb_" + name) for name in names}
    return {name: (python_type(f.restype), [python_type(argument) for argument in f.argtypes]) for name, f in functions.items()}


def as_python(function):
    """A function as Python's table has it."""
    plain = {"usize": "u64"}
    kinds = [re.sub(r"\*(const|mut) ", "*", kind) for kind, _ in function[1]]
    return function[0], [plain.get(kind, kind) for kind in kinds]


# ---- every name, in whatever layout ----


def header_names(text):
    """Functions that are declared or defined, and macros."""
    text = re.sub(r"/\*.*?\*/", "", text, flags=re.DOTALL)
    macros = re.findall(r"^\s*#\s*define\s+(\w+)", text, re.MULTILINE)
    text = re.sub(r"^\s*#(?:.*\\\n)*.*$", "", text, flags=re.MULTILINE)
    text = re.sub(r"^\{.*?^\}", "", text, flags=re.MULTILINE | re.DOTALL)
    return sorted(re.findall(r"(\w+)\s*\(", text)) + sorted(macros)


def known_names(texts):
    """The functions of the sources, the header's inline functions, its constants, and four further macros."""
    inline = re.findall(r"^static inline .*?(\w+)\(", texts["header"], re.MULTILINE)
    macros = set(header_constants(texts["header"])) - set(re.findall(r"^    (DFB_\w+) =", texts["header"], re.MULTILINE))
    return sorted(list(rattle_functions(texts)) + inline) + sorted(macros | {"DFB_H", "DFB_VERSION", "dfb_refusal"})


def name_differences(texts, module):
    found, known = header_names(texts["header"]), known_names(texts)
    differences = [] if found == known else ["header: %s" % sorted(set(found) ^ set(known))]
    ffi = re.findall(r"fn (dfb_\w+)", texts["rust"])
    return differences + ([] if sorted(ffi) == sorted(rattle_functions(texts)) else ["Rust: %s" % ffi])


# ---- constants ----


def header_constants(text):
    text = re.sub(r"/\*.*?\*/", "", text, flags=re.DOTALL)
    found = re.findall(r"^#define (DFB_\w+) (\w+)$", text, re.MULTILINE) + re.findall(r"^    (DFB_\w+) = (\w+),?\s*$", text, re.MULTILINE)
    return {name: number(value) for name, value in found}


def rattle_constant(text, name):
    return number(one(r"const %s: \w+ = (\w+);" % name, text))


def rattle_refusals(text):
    return {capitals(name): int(value) for name, value in re.findall(r"^    (\w+) = (\d+),", one(r"(?s)pub enum Refusal \{(.*?)\n\}", text), re.MULTILINE)}


def rattle_constants(texts):
    """Each constant of the header, from the sources."""
    constants = {"DFB_STATE": rattle_constant(texts["dfb_board"], "STATE")}
    constants.update({"DFB_" + name: rattle_constant(texts["model"], name) for name in ("TOTALS", "POWERS", "OUTPUT")})
    constants.update({"DFB_REFUSAL_" + name: value for name, value in rattle_refusals(texts["refusal"]).items()})
    constants["DFB_REFUSED_8"] = number(one(r"(\w+) \+ refusal::number\(refusal\) as u16", texts["dfb_bands"]))
    constants["DFB_REFUSED_16"] = number(one(r"(\w+) \+ refusal::number\(refusal\) as u32", texts["dfb_refusals"]))
    constants["DFB_REFUSED_63"] = number(one(r"(0x\w+) \+ refusal::number\(refusal\) as u64", texts["dfb_refusals"]))
    for name in ("Idle", "Collected", "Waiting"):
        constants["DFB_" + name.upper()] = number(one(r"TickAnswer::%s\) => (\w+)," % name, texts["dfb_board"]))
    constants["DFB_REPORTED"] = number(one(r"TickAnswer::Reported\(words\)\) => (\w+) \+ words as u32 \* 65536 \+ reports", texts["dfb_board"]))
    words = {int(apid, 16): int(count) for apid, count in re.findall(r"(0x\w+) => Ok\((\d+)\)", texts["words"])}
    constants.update({"DFB_APID_" + name: apid for name, apid in APIDS.items() if apid in words})
    constants["DFB_APID_SPEC"] = rattle_constant(texts["words"], "SPEC")
    constants.update({"DFB_WORDS_" + name: words[apid] for name, apid in APIDS.items() if apid in words})
    constants["DFB_MOST_WORDS"] = max(words.values())
    kinds = re.findall(r"^    (\w+) = (\d+),", one(r"(?s)pub enum Kind \{(.*?)\n\}", texts["board_log"]), re.MULTILINE)
    constants.update({"DFB_KIND_" + capitals(name): int(value) for name, value in kinds})
    constants["DFB_KIND_END"] = number(one(r"None => put_numbers\(numbers, at, \[(\d+), 0, 0\]\)", texts["dfb_log"]))
    constants["DFB_RECORD"] = number(one(r"numbers\.len\(\) < (\d+)", texts["dfb_log"]))
    constants["DFB_MOST_LISTED"] = rattle_constant(texts["listing"], "MOST")
    constants["DFB_REGISTERS"] = rattle_constant(texts["registers"], "COUNT")
    constants.update({"DFB_" + name: rattle_constant(texts["dfb_walk"], name) for name in ("WALK", "ITEM")})
    numbers = re.findall(r"Item::(\w+)[^=\[\]]*?(?:\| Item::(\w+)[^=\[\]]*)? => \[([^\]]*)\]", texts["dfb_walk"])
    lists = {variant: [part.split(" as ")[0].strip() for part in text.split(",") if part.strip()] for first, second, text in numbers for variant in (first, second) if variant}
    constants.update({"DFB_ITEM_" + name: lists["Command"].index(source) for name, source in ITEM_NUMBERS.items()})
    for name, source in (("PLACE", "after.at"), ("RECORDS", "after.records")):
        constants["DFB_WALK_" + name] = number(one(r"walk\[(\d)\] = %s as u64;" % source, texts["dfb_walk"]))
    constants["DFB_WALK_REGISTERS"] = number(one(r"walk\[(\d)\.\.\]\.copy_from_slice\(&after\.registers", texts["dfb_walk"]))
    names = {"COMMAND": "Command", "SET": "Spectra", "SECOND_MARK": "SecondMark", "TICK": "Tick"}
    constants.update({"DFB_ITEM_KIND_" + name: int(dict(kinds)[lists[variant][0].replace("Kind::", "")]) for name, variant in names.items()})
    constants["DFB_ITEM_KIND_END"] = number(one(r"Step::End\(records\) => put_numbers\(item, \[(\d), at, 0, records", texts["dfb_walk"]))
    constants["DFB_COUNTS"] = rattle_constant(texts["counts"], "LENGTH")
    for name in ("Rate", "Period"):
        constants["DFB_" + name.upper()] = number(one(r"Cadence::%s\(\w+\)\) => put_values\(value, &\[\w+\], (\d+)\)" % name, texts["dfb_bands"]))
    constants.update({"DFB_" + name: rattle_constant(texts["coarse"], name) for name in ("FINE_TOTALS", "MOST_TOTAL")})
    constants["DFB_MOST_SLOTS"] = rattle_constant(texts["bursts"], "MOST_SLOTS")
    constants.update({"DFB_SLOT_" + name: rattle_constant(texts["dfb_bursts"], name) for name in ("FREE", "HELD", "SENDING")})
    constants["DFB_MOST_BLOCKS"] = rattle_constant(texts["interval"], "MOST_BLOCKS")
    places = enumerate(re.findall(r"from\.(\w+)", one(r"copy_from_slice\(&\[([^\]]*)\]\)", texts["dfb_snapshot"])))
    constants.update({"DFB_SNAPSHOT_" + SNAPSHOT_NAMES.get(name, name).upper(): place for place, name in places})
    constants["DFB_SNAPSHOT_HEADER"] = rattle_constant(texts["dfb_snapshot"], "HEADER")
    samples = 8 * number(one(r"(\d+) \* u8::count_ones\(mask\)", texts["snapshot"]))
    constants["DFB_MOST_SNAPSHOT_SAMPLES"] = samples
    constants["DFB_MOST_SNAPSHOT_BYTES"] = rattle_constant(texts["snapshot"], "HEADER") + 2 * samples
    constants.update({"DFB_SUM_" + name: rattle_constant(texts["summed"], name) for name in ("COMPONENTS", "BINS", "TOTALS", "PAIRS", "OUTPUT")})
    constants["DFB_SUM_STATE"] = rattle_constant(texts["dfb_summed"], "STATE")
    packet, packet_header = rattle_constant(texts["space_packets"], "MOST_BYTES"), rattle_constant(texts["space_packets"], "HEADER")
    constants.update({"DFB_PACKET_BYTES": packet, "DFB_PACKET_HEADER": packet_header})
    constants["DFB_PACKET_SAMPLES"] = max(count * ((packet - packet_header) // (2 * count)) for count in words.values())
    constants["DFB_LAST_PACKET_COUNT"] = rattle_constant(texts["space_packets"], "LAST_COUNT")
    constants["DFB_PACKET_NUMBERS"] = rattle_constant(texts["dfb_space_packets"], "HEADER")
    return constants


def version_constants(text):
    major, minor, patch = one(r'#define DFB_VERSION "(\d+)\.(\d+)\.(\d+)"', text)
    return {"DFB_VERSION_MAJOR": int(major), "DFB_VERSION_MINOR": int(minor), "DFB_VERSION_PATCH": int(patch)}


# ---- comparisons: what differs, as lines of text ----


def compare(what, found, expected):
    return ["%s: %s is %s, not %s" % (what, name, found.get(name), expected.get(name))
            for name in sorted(set(found) | set(expected)) if found.get(name) != expected.get(name)]


def function_differences(texts, module):
    expected = rattle_functions(texts)
    differences = compare("header", header_functions(texts["header"]), expected)
    differences += compare("Rust", rust_functions(texts["rust"]), expected)
    return differences + compare("Python", python_functions(module), {name: as_python(f) for name, f in expected.items()})


def constant_differences(texts, module):
    expected = {**rattle_constants(texts), **version_constants(texts["header"])}
    differences = compare("header", header_constants(texts["header"]), expected)
    names = {"STATE", "TOTALS", "POWERS", "OUTPUT", "RECORD", "MOST_WORDS", "REGISTERS", "COUNTS", "FINE_TOTALS", "MOST_TOTAL"}
    names |= {"WALK", "ITEM"}
    names |= {"SNAPSHOT_HEADER", "MOST_SNAPSHOT_SAMPLES", "MOST_SNAPSHOT_BYTES"}
    names |= {"SUM_COMPONENTS", "SUM_BINS", "SUM_STATE", "SUM_TOTALS", "SUM_PAIRS", "SUM_OUTPUT"}
    names |= {"PACKET_HEADER", "PACKET_BYTES", "PACKET_SAMPLES", "PACKET_NUMBERS", "LAST_PACKET_COUNT"}
    python = {name: expected["DFB_" + name] for name in names}
    python.update({name: expected["DFB_KIND_" + name] for name in ("END", "COMMAND", "WORD", "SECOND_MARK", "TICK")})
    python["SET"] = expected["DFB_ITEM_KIND_SET"]
    python.update({name: expected["DFB_SLOT_" + name] for name in ("FREE", "HELD", "SENDING")})
    capital = {name: value for name, value in vars(module).items() if re.fullmatch(r"[A-Z_]+", name) and isinstance(value, int)}
    differences += compare("Python", capital, python)
    rust = re.findall(r"^(?:pub )?const (\w+): \w+ = (\w+);", texts["rust"], re.MULTILINE)
    return differences + compare("Rust", {name: number(value) for name, value in rust}, {name: expected["DFB_" + name] for name, _ in rust})


def refusal_differences(texts, module):
    numbers = rattle_refusals(texts["refusal"])
    meanings = dict(re.findall(r"DFB_REFUSAL_(\w+) = \d+,?\s*/\* (.*?) \*/", texts["header"]))
    differences = compare("meanings", meanings, {name: meanings.get(name, "to be said") for name in numbers})
    switch = dict(re.findall(r'case DFB_REFUSAL_(\w+): return "(.*)";', texts["header"]))
    differences += compare("dfb_meaning", switch, meanings)
    differences += compare("Python", module.MEANINGS, {numbers.get(name): meaning for name, meaning in meanings.items()})
    rust = {capitals(name): meaning for name, meaning in re.findall(r'Refusal::(\w+) => "(.*)",', texts["rust"])}
    differences += compare("Rust's meanings", rust, meanings)
    enum = {capitals(name): int(value) for name, value in re.findall(r"^    (\w+) = (\d+),$", texts["rust"], re.MULTILINE)}
    differences += compare("Rust's numbers", enum, numbers)
    of = {capitals(name): int(value) for value, name in re.findall(r"(\d+) => Refusal::(\w+),", texts["rust"])}
    return differences + compare("Rust's refusals by number", of, numbers)


def struct_fields(text, name):
    """Names and types of the fields of a struct, in order."""
    return re.findall(r"pub (\w+): (\w+),", one(r"(?s)pub struct %s \{(.*?)\n\}" % name, text))


def snapshot_differences(texts, module):
    """Of the numbers of a snapshot's header: their order, and their bits, which the header names but where a rule has a limit."""
    fields = [(SNAPSHOT_NAMES.get(name, name), kind) for name, kind in struct_fields(texts["snapshot"], "Header")]
    bits = dict(re.findall(r"DFB_SNAPSHOT_(\w+) = \d+,?\s*/\* (\d+) bits", texts["header"]))
    found = {"Rust": struct_fields(texts["rust"], "SnapshotHeader"), "Python": list(module.SnapshotHeader._fields), "bits": bits}
    expected = {"Rust": fields, "Python": [name for name, _ in fields]}
    expected["bits"] = {name.upper(): kind[1:] for name, kind in fields}
    places = {"DFB_SNAPSHOT_" + name.upper(): place for place, (name, _) in enumerate(fields)}
    constants = header_constants(texts["header"])
    return compare("snapshot", found, expected) + compare("places", {name: constants.get(name) for name in places}, places)


def packet_differences(texts, module):
    """Of the numbers of a space packet's header: their order, in the list of C too."""
    fields = struct_fields(texts["space_packets"], "PacketHeader")
    places = re.findall(r"header\[(\d)\] = from\.(\w+);", texts["dfb_space_packets"])
    found = {"Rust": struct_fields(texts["rust"], "PacketHeader"), "Python": list(module.SpacePacket._fields[:-1]), "C": places}
    names = [name for name, _ in fields]
    return compare("space packet", found, {"Rust": fields, "Python": names, "C": [(str(place), name) for place, name in enumerate(names)]})


def version_differences(texts, module):
    version = one(r'#define DFB_VERSION "(.*)"', texts["header"])
    found = {"Python": module.__version__, "Cargo.toml": one(r'(?m)^version = "(.*)"$', texts["cargo"])}
    return compare("version", found, {name: version for name in found})


def differences(texts):
    module = python_module(texts["python"])
    module.text = texts["python"]
    comparisons = (name_differences, function_differences, constant_differences, refusal_differences, snapshot_differences, packet_differences,
                   version_differences)
    return [line for comparison in comparisons for line in comparison(texts, module)]


# Each is found by the comparison: the text, what it replaces, and by what.
WRONG_EDITS = [
    # an answer's type, constants, swapped parameters, constness, a function that is missing
    ("header", "uint32_t dfb_pack(", "uint64_t dfb_pack("),
    ("header", "#define DFB_OUTPUT 1176", "#define DFB_OUTPUT 1167"),
    ("header", "#define DFB_STATE 9", "#define DFB_STATE 8"),
    ("header", "#define DFB_REPORTED 0x80000000u", "#define DFB_REPORTED 0x20000u"),
    ("header", "#define DFB_REFUSED_8 0x100u", "#define DFB_REFUSED_8 0x10000u"),
    ("header", "uint32_t bonus, uint32_t limit", "uint32_t limit, uint32_t bonus"),
    ("header", "uint8_t setting, uint8_t band", "uint8_t band, uint8_t setting"),
    ("header", "dfb_read(const uint16_t *state", "dfb_read(uint16_t *state"),
    ("header", "dfb_append(uint8_t *log, size_t log_len", "dfb_append(const uint8_t *log, size_t log_len"),
    ("header", "dfb_expand_band(uint8_t code)", "dfb_expand_band(uint16_t code)"),
    ("header", "uint16_t dfb_compress_sum(uint64_t value);", ""),
    ("header", "DFB_REFUSAL_NONE_SENDING = 28,", "DFB_REFUSAL_NONE_SENDING = 26,"),
    ("header", "DFB_WORDS_V_B1 = 7", "DFB_WORDS_V_B1 = 6"),
    ("header", "DFB_APID_MAG_SVY = 0x45", "DFB_APID_MAG_SVY = 0x46"),
    ("header", "DFB_KIND_SECOND_MARK = 3", "DFB_KIND_SECOND_MARK = 4"),
    ("header", "DFB_SLOT_SENDING = 2", "DFB_SLOT_SENDING = 3"),
    ("header", "/* a slot is already sending */", "/* a slot is sending */"),
    ("header", 'return "the words are not exactly one set"', 'return "the words are exactly one set"'),
    ("header", "#define DFB_VERSION_MINOR ", "#define DFB_VERSION_MINOR 1"),
    ("header", "#define DFB_VERSION_PATCH ", "#define DFB_VERSION_PATCH 1"),
    ("header", "#define DFB_RATE 0u", "#define DFB_RATE 1u"),
    ("header", "#define DFB_MOST_TOTAL 0x2000000000000u", "#define DFB_MOST_TOTAL 0x20000000000000u"),
    ("header", "DFB_REFUSAL_TOTAL_TOO_LARGE = 24", "DFB_REFUSAL_TOTAL_TOO_LARGE = 23"),
    ("header", "uint8_t setting, const uint64_t *fine", "uint8_t setting, uint64_t *fine"),
    ("header", "#define DFB_REGISTERS 7", "#define DFB_REGISTERS 9"),
    ("header", "DFB_REFUSAL_SECOND_FALLS = 19", "DFB_REFUSAL_SECOND_FALLS = 22"),
    ("header", "/* a processor is enabled and N is above C */", "/* a processor is enabled and C is above N */"),
    ("header", "uint64_t dfb_check_commands(const uint8_t *log", "uint64_t dfb_check_commands(uint8_t *log"),
    ("header", "uint64_t dfb_check_commands(", "uint32_t dfb_check_commands("),
    ("header", "#define DFB_WALK 9", "#define DFB_WALK 8"),
    ("header", "#define DFB_ITEM 5", "#define DFB_ITEM 4"),
    ("header", "DFB_WALK_REGISTERS = 2", "DFB_WALK_REGISTERS = 3"),
    ("header", "DFB_ITEM_BYTES = 2", "DFB_ITEM_BYTES = 3"),
    ("header", "DFB_ITEM_KIND_SECOND_MARK = 3", "DFB_ITEM_KIND_SECOND_MARK = 4"),
    ("header", "DFB_ITEM_KIND_SET = 2", "DFB_ITEM_KIND_SET = 5"),
    ("header", "uint64_t dfb_walk_next(const uint8_t *log", "uint64_t dfb_walk_next(uint8_t *log"),
    ("header", "uint64_t *walk, size_t walk_len, uint64_t *item", "const uint64_t *walk, size_t walk_len, uint64_t *item"),
    ("header", "uint64_t *walk, size_t walk_len, uint64_t *item", "uint64_t *item, size_t item_len, uint64_t *walk"),
    ("header", "#define DFB_COUNTS 7", "#define DFB_COUNTS 6"),
    ("header", "dfb_counted_command(uint8_t *log", "dfb_counted_command(const uint8_t *log"),
    ("header", "size_t registers_len, uint8_t id, uint16_t information", "size_t registers_len, uint16_t information, uint8_t id"),
    ("header", "size_t registers_len, uint32_t seconds", "size_t registers_len, uint16_t seconds"),
    ("header", "uint64_t dfb_counted_tick(uint8_t *log, size_t log_len, size_t used, uint64_t *counts",
     "uint64_t dfb_counted_tick(uint8_t *log, size_t used, size_t log_len, uint64_t *counts"),
    ("header", "uint8_t apid, const int16_t *samples, size_t samples_len);\n\n/* One SPEC set",
     "uint8_t apid, const uint16_t *samples, size_t samples_len);\n\n/* One SPEC set"),
    ("header", "size_t registers_len, const uint8_t *words", "size_t registers_len, uint8_t *words"),
    ("header", "dfb_count_sets(const uint8_t *log, size_t log_len, uint64_t *counts",
     "dfb_count_sets(const uint8_t *log, size_t log_len, const uint64_t *counts"),
    ("header", "#define DFB_SNAPSHOT_HEADER 10", "#define DFB_SNAPSHOT_HEADER 11"),
    ("header", "#define DFB_MOST_SNAPSHOT_SAMPLES 1024", "#define DFB_MOST_SNAPSHOT_SAMPLES 1023"),
    ("header", "#define DFB_MOST_SNAPSHOT_BYTES 2068", "#define DFB_MOST_SNAPSHOT_BYTES 2052"),
    ("header", "DFB_SNAPSHOT_SWITCHES_12 = 4,", "DFB_SNAPSHOT_SWITCHES_12 = 3,"),
    ("header", "DFB_SNAPSHOT_ARTEFACTS = 7,", "DFB_SNAPSHOT_ARTEFACTS = 8,"),
    ("header", "/* 32 bits, those at byte 8 */", "/* 16 bits, those at byte 8 */"),
    ("header", "DFB_REFUSAL_PACKET_OUT_OF_RANGE = 15", "DFB_REFUSAL_PACKET_OUT_OF_RANGE = 17"),
    ("header", "or its auxiliary length is not 8 */", "or its auxiliary length is not 0 */"),
    ("header", 'return "the packet is under 20 bytes', 'return "the packet is under 21 bytes'),
    ("header", "uint32_t dfb_snapshot_read(const uint8_t *packet", "uint32_t dfb_snapshot_read(uint8_t *packet"),
    ("header", "size_t packet_len, uint32_t *header", "size_t packet_len, uint16_t *header"),
    ("header", "uint32_t *header, size_t header_len, int16_t *samples", "uint32_t *header, size_t header_len, const int16_t *samples"),
    ("header", "uint32_t dfb_snapshot_write(", "uint64_t dfb_snapshot_write("),
    ("header", "const uint32_t *header, size_t header_len, const int16_t *samples, size_t samples_len",
     "const int16_t *samples, size_t samples_len, const uint32_t *header, size_t header_len"),
    ("header", "#define DFB_SUM_COMPONENTS 8", "#define DFB_SUM_COMPONENTS 7"),
    ("header", "#define DFB_SUM_BINS 1024", "#define DFB_SUM_BINS 1023"),
    ("header", "#define DFB_SUM_STATE 3", "#define DFB_SUM_STATE 4"),
    ("header", "#define DFB_SUM_TOTALS 2048", "#define DFB_SUM_TOTALS 1024"),
    ("header", "#define DFB_SUM_PAIRS 2048", "#define DFB_SUM_PAIRS 1024"),
    ("header", "#define DFB_SUM_OUTPUT 4096", "#define DFB_SUM_OUTPUT 2048"),
    ("header", "DFB_REFUSAL_COMPONENT_OUT_OF_ORDER = 17", "DFB_REFUSAL_COMPONENT_OUT_OF_ORDER = 13"),
    ("header", "/* the component is not the next one */", "/* the component is not one of the next */"),
    ("header", 'return "the component is not the next one"', 'return "the component is the next one"'),
    ("header", "the counting writer or a sum can have left */", "the counting writer can have left */"),
    ("header", "uint32_t dfb_sum_component(uint8_t *state", "uint64_t dfb_sum_component(uint8_t *state"),
    ("header", "dfb_sum_component(uint8_t *state", "dfb_sum_component(const uint8_t *state"),
    ("header", "size_t state_len, uint64_t *totals, size_t totals_len, uint8_t component",
     "size_t state_len, uint32_t *totals, size_t totals_len, uint8_t component"),
    ("header", "uint8_t component, uint8_t first_mask", "uint8_t first_mask, uint8_t component"),
    ("header", "uint8_t second_mask, const int16_t *pairs", "uint8_t second_mask, int16_t *pairs"),
    ("header", "size_t pairs_len, uint8_t *out, size_t out_len", "size_t pairs_len, const uint8_t *out, size_t out_len"),
    ("header", "#define DFB_PACKET_HEADER 6", "#define DFB_PACKET_HEADER 7"),
    ("header", "#define DFB_PACKET_BYTES 4096", "#define DFB_PACKET_BYTES 4090"),
    ("header", "#define DFB_LAST_PACKET_COUNT 16383", "#define DFB_LAST_PACKET_COUNT 16384"),
    ("header", "#define DFB_PACKET_SAMPLES 2044", "#define DFB_PACKET_SAMPLES 2043"),
    ("header", "#define DFB_PACKET_NUMBERS 2", "#define DFB_PACKET_NUMBERS 3"),
    ("header", "DFB_REFUSAL_WRONG_HEADER_FIELD = 22", "DFB_REFUSAL_WRONG_HEADER_FIELD = 23"),
    ("header", "DFB_REFUSAL_WRONG_DATA_LENGTH = 23", "DFB_REFUSAL_WRONG_DATA_LENGTH = 13"),
    ("header", "or the first count is over 16383 */", "or the first count is over 16384 */"),
    ("header", 'return "a space packet has a wrong length, or its samples', 'return "a space packet has a wrong length, or the samples'),
    ("header", "uint64_t dfb_export_packets(", "uint32_t dfb_export_packets("),
    ("header", "dfb_export_packets(uint8_t apid, uint16_t *count", "dfb_export_packets(uint8_t apid, const uint16_t *count"),
    ("header", "dfb_export_packets(uint8_t apid, uint16_t *count", "dfb_export_packets(uint16_t apid, uint16_t *count"),
    ("header", "size_t count_len, const int16_t *samples", "size_t count_len, int16_t *samples"),
    ("header", "uint32_t dfb_import_packet(const uint8_t *packet", "uint32_t dfb_import_packet(uint8_t *packet"),
    ("header", "uint16_t *header, size_t header_len, int16_t *samples", "uint32_t *header, size_t header_len, int16_t *samples"),
    ("header", "uint16_t *header, size_t header_len, int16_t *samples", "uint16_t *header, size_t header_len, const int16_t *samples"),
    ("header", "#define DFB_TOTALS 784", "#define DFB_TOTALS 784\n#define DFB_MORE (1u << 3)"),
    ("header", "uint8_t dfb_compress_band(uint32_t value);", "uint8_t dfb_compress_band(uint32_t value);\nextern int dfb_more (void);"),
    ("rust", "pub fn dfb_compress_band(value: u32) -> u8;", "pub fn dfb_compress_band(value: u32) -> u8; pub fn dfb_more(value: u8);"),
    ("rust", "information: u16) -> u32;", "information: u16) -> u64;"),
    ("rust", "bonus: u32, limit: u32) -> u64;", "limit: u32, bonus: u32) -> u64;"),
    ("rust", "pub const OUTPUT: usize = 1176", "pub const OUTPUT: usize = 1175"),
    ("rust", "pub const STATE: usize = 9", "pub const STATE: usize = 8"),
    ("rust", "const REPORTED: u32 = 0x8000_0000", "const REPORTED: u32 = 0x2_0000"),
    ("rust", "AlreadySending = 27,", "AlreadySending = 28,"),
    ("rust", "pub const MOST_TOTAL: u64 = 0x2_0000", "pub const MOST_TOTAL: u64 = 0x1_0000"),
    ("rust", "setting: u8, fine: *const u64, fine_len: usize, out: *mut u64", "setting: u8, fine: *mut u64, fine_len: usize, out: *const u64"),
    ("rust", "pub const REGISTERS: usize = 7", "pub const REGISTERS: usize = 9"),
    ("rust", "log_len: usize, registers: *mut u16", "log_len: usize, registers: *const u16"),
    ("rust", "pub const WALK: usize = 9", "pub const WALK: usize = 7"),
    ("rust", "pub const ITEM: usize = 5", "pub const ITEM: usize = 4"),
    ("rust", "walk_len: usize, item: *mut u64", "walk_len: usize, item: *const u64"),
    ("rust", "pub const COUNTS: usize = 7", "pub const COUNTS: usize = 6"),
    ("rust", "information: u16,\n        ) -> u64;", "information: u16,\n        ) -> u32;"),
    ("rust", "seconds: u32,\n        ) -> u64;", "seconds: u64,\n        ) -> u64;"),
    ("rust", "apid: u8,\n            samples: *const i16", "apid: u8,\n            samples: *mut i16"),
    ("rust", "words: *const u8,", "words: *const u16,"),
    ("rust", "pub fn dfb_count_sets(\n            log: *const u8", "pub fn dfb_count_sets(\n            log: *mut u8"),
    ("rust", "pub const MOST_SNAPSHOT_SAMPLES: usize = 1024", "pub const MOST_SNAPSHOT_SAMPLES: usize = 1023"),
    ("rust", "pub fn dfb_snapshot_read(\n            packet: *const u8", "pub fn dfb_snapshot_read(\n            packet: *mut u8"),
    ("rust", "header: *const u32,", "header: *const u16,"),
    ("rust", "    pub switches_12: u8,", "    pub switches_12: u16,"),
    ("rust", "UnknownPacket = 14,", "UnknownPacket = 13,"),
    ("rust", "16 => Refusal::WrongPacketLength", "17 => Refusal::WrongPacketLength"),
    ("rust", "pub const SUM_COMPONENTS: u8 = 8", "pub const SUM_COMPONENTS: u8 = 7"),
    ("rust", "pub const SUM_OUTPUT: usize = 4096", "pub const SUM_OUTPUT: usize = 2048"),
    ("rust", "pub fn dfb_sum_component(\n            state: *mut u8", "pub fn dfb_sum_component(\n            state: *const u8"),
    ("rust", "component: u8,\n            first_mask: u8", "first_mask: u8,\n            component: u8"),
    ("rust", "pairs: *const i16,", "pairs: *mut i16,"),
    ("rust", "ComponentOutOfOrder = 17,", "ComponentOutOfOrder = 13,"),
    ("rust", "17 => Refusal::ComponentOutOfOrder", "13 => Refusal::ComponentOutOfOrder"),
    ("rust", '"the component is not the next one"', '"the component is the next one"'),
    ("rust", "apid: u8,\n            count: *mut u16", "apid: u8,\n            count: *const u16"),
    ("rust", "pub fn dfb_import_packet(\n            packet: *const u8", "pub fn dfb_import_packet(\n            packet: *mut u8"),
    ("rust", "header: *mut u16,", "header: *mut u32,"),
    ("rust", "pub const PACKET_SAMPLES: usize = 2044", "pub const PACKET_SAMPLES: usize = 2043"),
    ("rust", "pub const LAST_PACKET_COUNT: u16 = 16383", "pub const LAST_PACKET_COUNT: u16 = 16384"),
    ("rust", "    pub apid: u16,\n", "    pub apid: u8,\n"),
    ("rust", "WrongHeaderField = 22,", "WrongHeaderField = 13,"),
    ("rust", "23 => Refusal::WrongDataLength", "13 => Refusal::WrongDataLength"),
    ("rust", '"a space packet\'s header field is not as stated, or the first', '"a space packet\'s header field is as stated, or the first'),
    ("rust", "ValueAltered = 20,", "ValueAltered = 21,"),
    ("rust", "19 => Refusal::SecondFalls", "21 => Refusal::SecondFalls"),
    ("rust", '"a slot is already sending"', '"a slot is sending"'),
    ("python", '("expand_band", U64,', '("expand_band", U32,'),
    ("python", '("coarse_totals", U32, [U8]', '("coarse_totals", U32, [U16]'),
    ("python", "FINE_TOTALS, MOST_TOTAL = 112, 1 << 49", "FINE_TOTALS, MOST_TOTAL = 112, 1 << 48"),
    ("python", '("check_commands", U64, _list(U8) + _list(U16))', '("check_commands", U64, _list(U8) + _list(U32))'),
    ("python", "REGISTERS = 7\n", "REGISTERS = 9\n"),
    ("python", "WALK, ITEM = 9, 5", "WALK, ITEM = 9, 4"),
    ("python", "SET = 2\n", "SET = 3\n"),
    ("python", '("walk_next", U64, _list(U8) + _list(U64) + _list(U64))', '("walk_next", U64, _list(U8) + _list(U64) + _list(U16))'),
    ("python", "COUNTS = 7\n", "COUNTS = 6\n"),
    ("python", "_counted = _list(U8) + [SIZE] + _list(U64)", "_counted = _list(U8) + [SIZE] + _list(U32)"),
    ("python", '("counted_command", U64, _counted + [U8, U16])', '("counted_command", U64, _counted + [U16, U8])'),
    ("python", '("counted_mark", U64, _counted + [U32])', '("counted_mark", U64, _counted + [U16])'),
    ("python", '("counted_tick", U64, _counted)', '("counted_tick", U32, _counted)'),
    ("python", '("counted_set", U64, _counted + [U8] +', '("counted_set", U64, _counted +'),
    ("python", '("counted_report", U64, _counted + _list(U8))', '("counted_report", U64, _counted + _list(U16))'),
    ("python", '("count_sets", U64, _list(U8) + _list(U64) + _list(U16))', '("count_sets", U64, _list(U8) + _list(U16) + _list(U64))'),
    ("python", '20: "the register would store another value', '20: "the register would store the value'),
    ("python", '("snapshot_read", U32, _list(U8) + _list(U32)', '("snapshot_read", U32, _list(U32) + _list(U8)'),
    ("python", '("snapshot_write", U32, _list(U32) + _list(ctypes.c_int16)', '("snapshot_write", U32, _list(U32) + _list(U16)'),
    ("python", "MOST_SNAPSHOT_BYTES = 10, 1024, 2068", "MOST_SNAPSHOT_BYTES = 10, 1024, 2052"),
    ("python", "    total_packets: int\n    artefacts: int\n", "    artefacts: int\n    total_packets: int\n"),
    ("python", '15: "the total of packets is over 3072', '15: "the total of packets is over 3073'),
    ("python", '("sum_component", U32, _list(U8) + _list(U64)', '("sum_component", U32, _list(U64) + _list(U8)'),
    ("python", "[U8, U8, U8] + _list(ctypes.c_int16) + _list(U8)", "[U8, U8] + _list(ctypes.c_int16) + _list(U8)"),
    ("python", "[U8, U8, U8] + _list(ctypes.c_int16)", "[U8, U8, U8] + _list(U16)"),
    ("python", "SUM_COMPONENTS, SUM_BINS = 8, 1024", "SUM_COMPONENTS, SUM_BINS = 8, 2048"),
    ("python", "SUM_PAIRS, SUM_OUTPUT = 3, 2048, 2048, 4096", "SUM_PAIRS, SUM_OUTPUT = 3, 2048, 2048, 2048"),
    ("python", '17: "the component is not the next one"', '17: "the component is out of order"'),
    ("python", "the counting writer or a sum can have left", "the counting writer can have left"),
    ("python", '("export_packets", U64, [U8] + _list(U16)', '("export_packets", U64, [U8] + _list(U32)'),
    ("python", '("export_packets", U64,', '("export_packets", U32,'),
    ("python", '("import_packet", U32, _list(U8) + _list(U16)', '("import_packet", U32, _list(U16) + _list(U8)'),
    ("python", "PACKET_NUMBERS, LAST_PACKET_COUNT = 6, 4096, 2044, 2, 16383", "PACKET_NUMBERS, LAST_PACKET_COUNT = 6, 4096, 2043, 2, 16383"),
    ("python", "PACKET_NUMBERS, LAST_PACKET_COUNT = 6, 4096, 2044, 2, 16383", "PACKET_NUMBERS, LAST_PACKET_COUNT = 6, 4096, 2044, 2, 16384"),
    ("python", "    apid: int\n    count: int\n", "    count: int\n    apid: int\n"),
    ("python", "or the first count is over 16383", "or the first count is over 16384"),
    ("python", '23: "a space packet has a wrong length, or', '23: "a space packet has a length, or'),
    ("python", '("compress_band", U8, [U32])', '("compress_band", U8, [ctypes.c_int32])'),
    ("python", '("command", U32, _list(U16) + _list(U64)', '("command", U32, _list(U64) + _list(U16)'),
    ("python", "SECOND_MARK, TICK = 0, 1, 2, 3, 4", "TICK, SECOND_MARK = 0, 1, 2, 3, 4"),
    ("python", '27: "a slot is already sending"', '27: "no slot is sending"'),
    ("python", "STATE, TOTALS, POWERS, OUTPUT = 9, 784,", "STATE, TOTALS, POWERS, OUTPUT = 8, 784,"),
]

# Each inline function, wrong; the program tests/interface.c finds it.
WRONG_INLINE = [
    ("return answer < DFB_REFUSED_8 ? 0u : answer - DFB_REFUSED_8;", "return answer <= DFB_REFUSED_8 ? 0u : answer - 0xF0u;"),
    ("(answer & 0x800F0000u) == DFB_REFUSED_16", "answer >= DFB_REFUSED_16"),
    ("(answer & 0x800F0000u) == DFB_REFUSED_16", "answer - DFB_REFUSED_16 < 100u"),
    ("? 0u : (unsigned)(answer & 0xFFu)", "? 0u : (unsigned)(answer & 0x1Fu)"),
    ("(answer & ~DFB_REFUSED_63) >> 8", "answer >> 8"),
    ("answer < DFB_REPORTED ? 0u : (unsigned)(answer - DFB_REPORTED) >> 16", "(unsigned)(answer - DFB_REPORTED) >> 16"),
    ("(unsigned)(answer - DFB_REPORTED) >> 16", "(unsigned)(answer - DFB_REPORTED)"),
    ("(unsigned)(answer - DFB_REPORTED) >> 16", "(unsigned)(answer >> 16)"),
    ("answer < DFB_REPORTED ? 0u : (unsigned)(answer & 0xFFFFu)", "(unsigned)(answer & 0xFFFFu)"),
    ("answer < DFB_REPORTED ? 0u : (unsigned)(answer & 0xFFFFu)", "answer < DFB_REPORTED ? 0u : (unsigned)(answer & 0x7FFFu)"),
    ("(unsigned)(answer >> 20)", "(unsigned)(answer >> 16)"),
    ("(unsigned)(answer & 0xFFFFu);\n}\n\n/* The number of slots", "(unsigned)(answer & 0xFFu);\n}\n\n/* The number of slots"),
    ("(unsigned)(answer >> 16 & 0xFFFFu)", "(unsigned)(answer >> 16 & 0xFFFu)"),
    ("dfb_interval_first(uint64_t answer)\n{\n    return (unsigned)(answer & 0xFFFFu);",
     "dfb_interval_first(uint64_t answer)\n{\n    return (unsigned)(answer & 0xFFFu);"),
    ("case DFB_REFUSAL_ALREADY_SENDING: return \"a slot is already sending\";\n", ""),
    ("sizeof(answer) == 2 ? dfb_refusal_u16", "sizeof(answer) == 1 ? dfb_refusal_u16"),
    ("case DFB_APID_V_B1: return DFB_WORDS_V_B1;", "case DFB_APID_V_B1: return DFB_WORDS_E_B1;"),
    ("case DFB_KIND_SECOND_MARK: return 5;", "case DFB_KIND_SECOND_MARK: return 4;"),
    ("apid == DFB_APID_SPEC ? DFB_COUNTS - 1", "apid == DFB_APID_SPEC ? DFB_COUNTS"),
    ("(size_t)(apid - DFB_APID_E_SVY) : DFB_COUNTS", "(size_t)(apid - DFB_APID_E_SVY) : DFB_COUNTS - 1"),
    ("(size_t)(apid - DFB_APID_E_SVY)", "(size_t)(DFB_APID_SCM_B1 - apid)"),
    ("6 * log_len + 64", "6 * log_len + 63"),
    ("? 64 : 6", "? 63 : 6"),
    ("case 1: return 64;", "case 1: return 63;"),
    ("128 * (size_t)(component_mask & 1)", "128 * (size_t)(component_mask & 3)"),
    ("(uint8_t)(component_mask >> 1)", "(uint8_t)(component_mask >> 2)"),
    ("return 20 + 2 * dfb_snapshot_samples", "return 16 + 2 * dfb_snapshot_samples"),
    ("return 2 * samples + DFB_PACKET_HEADER", "return samples + DFB_PACKET_HEADER"),
    ("DFB_PACKET_HEADER * (samples / 2043 + 1)", "DFB_PACKET_HEADER * (samples / 2044 + 1)"),
    ("DFB_PACKET_HEADER * (samples / 2043 + 1)", "DFB_PACKET_HEADER * (samples / 2043)"),
    ("DFB_PACKET_HEADER * (samples / 2043 + 1)", "DFB_PACKET_BYTES * (samples / 2043 + 1)"),
    ("bytes_len < DFB_PACKET_HEADER", "bytes_len < DFB_PACKET_HEADER - 1"),
    ("DFB_PACKET_HEADER + 1 + 256 * (size_t)bytes[4] + bytes[5]", "DFB_PACKET_HEADER + 256 * (size_t)bytes[4] + bytes[5]"),
    ("256 * (size_t)bytes[4] + bytes[5]", "256 * (size_t)bytes[5] + bytes[4]"),
    ("packet <= bytes_len ? packet : 0", "packet < bytes_len ? packet : 0"),
    ("packet <= bytes_len ? packet : 0", "packet"),
]


class Declarations(unittest.TestCase):
    def test_all_agree(self):
        self.assertEqual(differences(sources()), [])

    def test_every_function_is_found(self):
        """The parsers see each function of the library, and each of its parameters."""
        functions = rattle_functions(sources())
        exports = [line for crate in sources().values() for line in crate.splitlines() if line == "#[unsafe(no_mangle)]"]
        self.assertEqual(len(functions), len(exports))
        self.assertEqual(functions["dfb_tick"], ("u32", [
            ("*mut u16", "state"), ("usize", "state_len"), ("*mut u64", "totals"), ("usize", "totals_len"),
            ("*const u32", "powers"), ("usize", "powers_len"), ("*mut u8", "out"), ("usize", "out_len")]))

    def test_wrong_edits_are_found(self):
        for name, old, new in WRONG_EDITS:
            with self.subTest(name=name, old=old, new=new):
                texts = sources()
                self.assertEqual(texts[name].count(old), 1)
                texts[name] = texts[name].replace(old, new)
                self.assertNotEqual(differences(texts), [])


class Inline(unittest.TestCase):
    def test_wrong_inline_functions_are_found(self):
        compiler = shutil.which("cc")
        if compiler is None:
            self.skipTest("cc is not there")
        for old, new in WRONG_INLINE:
            with self.subTest(old=old, new=new), tempfile.TemporaryDirectory() as folder:
                header, program = read("include", "dfb.h"), os.path.join(folder, "program")
                self.assertEqual(header.count(old), 1)
                with open(os.path.join(folder, "dfb.h"), "w", encoding="utf8") as file:
                    file.write(header.replace(old, new))
                built = build(compiler, C99, os.path.join(TOP, "tests", "interface.c"), program, include=folder)
                self.assertEqual((built.returncode, built.stderr), (0, ""))
                self.assertNotEqual(run(program).returncode, 0)


if __name__ == "__main__":
    unittest.main()
