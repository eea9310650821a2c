"""The calls that crates/gateway exports to C, read off their source: host/unproved wraps them, tests/header holds the header to them."""
import pathlib
import re
import typing

ROOT = pathlib.Path(__file__).resolve().parent.parent
BITS = {"u8": 8, "u16": 16, "u32": 32, "u64": 64, "usize": 64, "bool": 8}

MARKED = re.compile(r'#\[unsafe\(no_mangle\)\]\s*(?:#\[[^]]*\]\s*)*pub extern "C" fn (\w+)\s*\(([^)]*)\)\s*(?:->\s*(\w+))?')
PARAMETER = re.compile(r"\s*(\w+):\s*(?:(?P<value>\w+)|&\s*(?P<mut>mut\s+)?\[(?P<element>\w+)(?:;\s*(?P<length>\w+))?\])\s*")


class Parameter(typing.NamedTuple):
    """A number, or a slice or an array that is lent; of these `element` is the type of one element."""
    element: str
    form: str                   # value, slice or array
    is_const: bool
    length: int                 # of an array, else 0


class Call(typing.NamedTuple):
    name: str
    path: str                   # in the crate, with its modules: gateway::record::name
    parameters: tuple
    result: str


def parameter_of(text):
    found = PARAMETER.fullmatch(text)
    if not found or (found["value"] or found["element"]) not in BITS:
        raise ValueError(f"no number, slice or array of numbers: {text.strip()}")
    if found["value"]:
        return Parameter(found["value"], "value", True, 0)
    form = "array" if found["length"] else "slice"
    return Parameter(found["element"], form, not found["mut"], int(found["length"] or 0))


def parameters_of(text):
    """Commas stand only between parameters: a `;` divides an array's type."""
    return tuple(parameter_of(part) for part in text.split(",") if part.strip())


def exported(crate="gateway", source=None):
    """The exported calls of a crate, by its files' text, in their order."""
    source = source or ROOT / "crates" / crate / "src"
    calls = []
    for file in sorted(source.rglob("*.rt")):
        modules = [part for part in file.relative_to(source).with_suffix("").parts if part != "lib"]
        for name, parameters, result in MARKED.findall(re.sub(r"//.*", "", file.read_text())):
            calls.append(Call(name, "::".join([crate, *modules, name]), parameters_of(parameters), result))
    return calls
