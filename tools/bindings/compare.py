"""Compares what the libraries write of the border with the engine."""

from __future__ import annotations

import re

from .engine import EXCHANGE, Border, Unreadable, read, read_all, text_of, upper, within
from .parts import PARTS

SIZES = {
    "u32": 4,
    "u64": 8,
    "i64": 8,
    "usize": 8,
    "Handle": 16,
    "&'a [u8]": 16,
    "&'a mut [u8]": 16,
}
IN_C = {
    "size_t": 8,
    "uint64_t": 8,
    "int64_t": 8,
    "uint32_t": 4,
    "expr_kind": 4,
    "handle": 16,
    "*": 8,
}
IN_RUST = {"u32": 4, "i64": 8, "usize": 8, "Handle": 16, "Slice<'a>": 16, "Room<'a>": 16}
IN_PYTHON = {"c_size_t": 8, "c_uint64": 8, "c_int64": 8, "c_uint32": 4, "c_int": 4, "c_void_p": 8}

Fields = list[tuple[str, int]]
"""The fields of a struct, each with its size."""


class Findings:
    """What differs from the engine."""

    def __init__(self) -> None:
        self.count = 0

    def tell(self, text: str) -> None:
        self.count += 1
        print(f"border: {text}")

    def same(self, what: str, written: object, wanted: object) -> None:
        if written != wanted:
            self.tell(f"{what}: there is\n    {written}\nwhere the engine has\n    {wanted}")


def words(text: str) -> list[str]:
    """Returns the words of a list, spelt as all languages can."""
    return [it.replace("_", "").upper() for it in re.findall(r"[A-Za-z]\w*", text)]


def compare_parts(border: Border, findings: Findings) -> None:
    for part in PARTS:
        text = text_of(part.file)
        if part.written(border, text) != text:
            findings.tell(
                f"{part.name} of {part.file} differ from the engine: run hosts/border.py --write"
            )


def compare_numbers(border: Border, findings: Findings) -> None:
    """Compares the numbers that the engine takes and returns with the order of its enums."""
    call, kind = read(f"{EXCHANGE}/call.rt"), read(f"{EXCHANGE}/kind.rt")
    error, serving = read(f"{EXCHANGE}/host_error.rt"), read_all("crates/expr_engine/src/*.rt")
    for what, pairs, names in [
        ("asks of call.rt", re.findall(r"(\d+) => Some\(Ask::(\w+)\)", call), border.asks),
        ("kinds of kind.rt", re.findall(r"(\d+) => Some\(Kind::(\w+)\)", kind), border.kinds),
        (
            "numbers of kind.rt",
            [it[::-1] for it in re.findall(r"Kind::(\w+) => (\d+)", kind)],
            border.kinds,
        ),
        (
            "statuses of the engine",
            [it[::-1] for it in re.findall(r"Status::(\w+) => (\d+)", serving)],
            border.statuses,
        ),
    ]:
        findings.same(
            what, sorted((int(number), name) for number, name in pairs), list(enumerate(names))
        )
    findings.same(
        "limits among the statuses", border.statuses[-len(border.limits) :], border.limits
    )
    refusals = re.findall(r"Language\(Error::(\w+?)(?:\(_\))?\) => Status::(\w+)", error)
    in_rust = re.findall(r"([A-Z]+) => Error::(\w+)", read("hosts/rust/src/engine.rs"))
    in_rust = [(name, status) for status, name in in_rust if name in dict(refusals)]
    findings.same(
        "errors of engine.rs",
        in_rust[: len(refusals)],
        [(name, upper(it)) for name, it in refusals],
    )


def compare_limits(border: Border, findings: Findings) -> None:
    """Compares where the five limits are listed."""
    limits, same = words(" ".join(border.limits)), findings.same
    header, calls = read("hosts/c/exprlang.h"), read("hosts/c/exprlang.c")
    engine = read("hosts/rust/src/engine.rs")
    native, python = read_all("hosts/python/native/*.c"), read_all("hosts/python/exprlang/*.py")
    struct = header.partition("} expr_limits;")[0].rpartition("typedef struct {")[2]
    same("limits of exprlang.h", words(re.sub("int64_t|size_t struct_size", "", struct)), limits)
    numbers = within(calls, "const int64_t numbers[] = {", "}")
    same("limits of exprlang.c", words(numbers.replace("limits->", "")), limits)
    listed = within(engine, "const ALL: [Limit; 5] = [", "]")
    same("limits of engine.rs", words(listed.replace("Limit::", "")), limits)
    whole = re.findall(r"whole\((?:limits\.)?(\w+)\)[,\]]", engine)
    same("numbers of engine.rs", words(" ".join(whole)), limits)
    fields = within(python, "[(name, ctypes.c_int64) for name in (", ")")
    same("limits of exprlang", words(fields), limits)
    same(
        "limits of program.c",
        words(" ".join(re.findall(r"within\.limits\.(\w+) = \1;", native))),
        limits,
    )
    bounds = within(python, "bounds = ", "\n").replace("limits.", "")
    same("numbers of exprlang", words(bounds), limits)


def compare_defaults(border: Border, findings: Findings) -> None:
    """Compares the limits for untrusted strings."""
    same, header = findings.same, read("hosts/c/exprlang.h")
    limits, in_rust = read("crates/expr_limits/src/limits.rt"), read("hosts/rust/src/limits.rs")
    untrusted = default_limits(within(limits, "        Limits {", "}"))
    names = words(" ".join(border.limits))
    same("limits for untrusted strings", [name for name, _ in untrusted], names)
    in_c = within(header, "EXPR_LIMITS_UNTRUSTED = {sizeof(expr_limits),", "}")
    same(
        "limits for untrusted strings in exprlang.h",
        [int(it) for it in in_c.split(",")],
        [it for _, it in untrusted],
    )
    same(
        "limits for untrusted strings in limits.rs",
        default_limits(within(in_rust, "        Limits {", "}"))[:5],
        untrusted,
    )
    python = read_all("hosts/python/exprlang/*.py")
    in_python = re.findall(r"    (\w+): int = ([\d_]+)\n", python)
    same(
        "limits for untrusted strings in exprlang",
        [(it.upper(), int(number)) for it, number in in_python[:5]],
        untrusted,
    )


def default_limits(text: str) -> Fields:
    return [(it.upper(), int(number)) for it, number in re.findall(r"(\w+): ([\d_]+)", text)]


def fields_of(text: str, name: str) -> Fields:
    """Returns the fields of a struct of C."""
    found: Fields = []
    for line in text.partition(f"}} {name};")[0].rpartition("typedef struct {")[2].split(";"):
        kind, _, fields = line.replace("const ", "").strip().partition(" ")
        if fields:
            size = size_in(IN_C, "*" if "*" in fields else kind)
            found += [(it.strip("* "), size) for it in fields.split(",")]
    return found


def size_in(sizes: dict[str, int], kind: str) -> int:
    if kind not in sizes:
        raise Unreadable(f"tools/bindings/compare.py knows no size of {kind}")
    return sizes[kind]


def places(fields: Fields) -> tuple[dict[str, int], int]:
    """Returns where the fields of a struct lie, as C lays it out, and its size."""
    at, lies = 0, {}
    for name, size in fields:
        at += -at % min(size, 8)
        lies[name] = at
        at += size
    return lies, at + -at % 8


def fields_in_rattle(path: str, struct: str) -> list[tuple[str, str]]:
    return re.findall(r"pub (\w+): (.*),", within(read(path), f"pub struct {struct} {{", "}"))


def compare_structs(findings: Findings) -> int:
    """Compares the layout of structs, and returns how many fields a call has."""
    same, border, raw = findings.same, read("hosts/c/border.h"), read("hosts/rust/src/raw.rs")
    call: Fields = []
    call_in_c: Fields = []
    for name, kind in fields_in_rattle(f"{EXCHANGE}/call.rt", "Call<'a>"):
        call.append((name, SIZES[kind]))
        is_slice = kind.endswith("[u8]")
        call_in_c += [(name, 8), (f"{name}_length", 8)] if is_slice else [call[-1]]
    handle = [
        (name, SIZES[kind]) for name, kind in fields_in_rattle(f"{EXCHANGE}/handles.rt", "Handle")
    ]
    for name, fields in [("call", call_in_c), ("handle", handle)]:
        same(f"{name} of border.h", fields_of(border, name), fields)
        written = {it: int(at) for it, at in re.findall(rf"AT\({name}, (\w+), (\d+)\);", border)}
        same(f"places of a {name} in border.h", written, places(fields)[0])
    sizes = [str(places(it)[1]) for it in (handle, call)]
    same("sizes of border.h", re.findall(r"sizeof\(\w+\) == (\d+)", border), sizes)
    in_rust = re.findall(r"    (\w+): (.*),", within(raw, "\nstruct Call<'a> {", "\n}"))
    same("call of raw.rs", [(name, IN_RUST.get(kind, kind)) for name, kind in in_rust], call)
    lies: dict[str, tuple[dict[str, int], int]] = {}
    asserted = within(raw, "lies_at! {\n", "\n}\n")
    for name, inside, whole in re.findall(r"    (\w+)(?:<'static>)? \{([^}]*)\} (\d+),", asserted):
        lies[name] = {it: int(at) for it, at in re.findall(r"(\w+): (\d+)", inside)}, int(whole)
    slices = dict.fromkeys(("Slice", "Room"), ({"at": 0, "length": 8}, 16))
    same("places of raw.rs", lies, {"Call": places(call), "Handle": places(handle), **slices})
    compare_public_structs(handle, findings)
    return len(call)


def compare_public_structs(handle: Fields, findings: Findings) -> None:
    """Compares the structs of exprlang.h with those of Python, and handles with the engine."""
    header, python = read("hosts/c/exprlang.h"), read_all("hosts/python/exprlang/*.py")
    for name in ("program", "context", "environment"):
        findings.same(f"expr_{name} of exprlang.h", fields_of(header, f"expr_{name}"), handle)
    for name, title in {
        "program": "Handle",
        "place": "Place",
        "answer": "Answer",
        "limits": "Limits",
    }.items():
        text = within(python, f"class _{title}(ctypes.Structure):\n    _fields_ = [", "]\n")
        listed = re.findall(r'\("(\w+)", ctypes\.(\w+)\)', text)
        alike = (
            within(text, "ctypes.c_int64) for name in (", ")") if " for name in " in text else ""
        )
        listed += [(field, "c_int64") for field in re.findall(r'"(\w+)"', alike)]
        fields = [(field, size_in(IN_PYTHON, kind)) for field, kind in listed]
        findings.same(f"_{title} of exprlang", fields, fields_of(header, f"expr_{name}"))


def compare_tests(findings: Findings) -> int:
    """Looks whether tests in C call each function of exprlang.h. Returns how many there are."""
    functions = re.findall(
        r"(?m)^(?:expr_\w+ \*?|const char \*|void )(expr_\w+)\(", read("hosts/c/exprlang.h")
    )
    for tests in (("test", "limits"), ("refused",)):
        text = "".join(read(f"hosts/c/{it}.c") for it in tests)
        left_out = [it for it in functions if f"{it}(" not in text]
        if left_out:
            findings.tell(
                f"{' and '.join(f'{it}.c' for it in tests)} call no {', '.join(left_out)}"
            )
    return len(functions)


def compare_versions(findings: Findings) -> str:
    """Looks whether all have the version of the file VERSION, and returns it."""
    version, header = text_of("VERSION").strip(), read("hosts/c/exprlang.h")
    major, minor, patch = (int(it) for it in version.split("."))
    number = str(10000 * major + 100 * minor + patch)
    same = findings.same
    same(
        "EXPR_VERSION of exprlang.h", re.findall(r'define EXPR_VERSION "(.*)"', header), [version]
    )
    same(
        "EXPR_VERSION_NUMBER of exprlang.h",
        re.findall(r"define EXPR_VERSION_NUMBER (\d+)", header),
        [number],
    )
    same(
        "version of Cargo.toml",
        re.findall(r'(?m)^version = "(.*)"', read("hosts/rust/Cargo.toml"))[:1],
        [version],
    )
    changes = re.findall(r"(?m)^## (\d+\.\d+\.\d+)", read("CHANGELOG.md"))
    same("the first version of CHANGELOG.md", changes[:1], [version])
    return version


def compare(border: Border) -> int:
    """Compares all, and returns the status."""
    findings = Findings()
    compare_parts(border, findings)
    compare_numbers(border, findings)
    compare_limits(border, findings)
    compare_defaults(border, findings)
    fields = compare_structs(findings)
    functions = compare_tests(findings)
    version = compare_versions(findings)
    if not findings.count:
        counts = {
            "asks": len(border.asks),
            "kinds": len(border.kinds),
            "endings": len(border.statuses),
            "limits": len(border.limits),
            "parts of a call": fields,
            "functions": functions,
        }
        said = ", ".join(f"{count} {name}" for name, count in counts.items())
        print(f"border: ok, {said}, version {version}")
    return 1 if findings.count else 0
