"""The functions that the crate host_c exports, and what each of them is in C and in Rust."""
import os
import re

C = {"u8": "uint8_t {}", "u32": "uint32_t {}", "u64": "uint64_t {}", "bool": "bool {}", "&mut u64": "uint64_t *{}", "&[u8]": "const uint8_t *{0}, size_t {0}_len",
     "&mut [u8]": "uint8_t *{0}, size_t {0}_len"}
RUST = {"u8": "{}: u8", "u32": "{}: u32", "u64": "{}: u64", "bool": "{}: bool", "&mut u64": "{}: *mut u64", "&[u8]": "{0}: *const u8, {0}_len: usize",
        "&mut [u8]": "{0}: *mut u8, {0}_len: usize"}


def exported():
    """Each exported function: its name, its parameters as (name, type), and its result's type; no parameters where it is not marked as it has to be."""
    for name in sorted(os.listdir("crates/host_c/src")):
        with open(f"crates/host_c/src/{name}", encoding="utf-8") as f:
            text = re.sub(r"//.*", "", f.read())
        for function, words, result in re.findall(r'extern "C" fn (\w+)\(([^)]*)\) -> (\w+)', text):
            marked = re.search(rf'#\[unsafe\(no_mangle\)\]\s*pub extern "C" fn {function}\(', text)
            parameters = [tuple(re.split(r":\s*", w.strip(), maxsplit=1)) for w in words.split(",") if w.strip()]
            yield function, parameters if marked else [], result


def meant(table, parameters):
    return ", ".join(table.get(kind, f"?{kind} {{}}").format(name) for name, kind in parameters)


def in_c():
    """The prototypes that they mean, by name."""
    return {name: f"{C[result].format(name)}({meant(C, parameters)})" for name, parameters, result in exported()}


def in_rust():
    return {name: f"fn {name}({meant(RUST, parameters)}) -> {result}" for name, parameters, result in exported()}


def header(path="include/sdti.h"):
    """The prototypes of the header for C, by name."""
    with open(path, encoding="ascii") as f:
        text = re.sub(r"/\*.*?\*/", "", f.read(), flags=re.S)
    found = [re.sub(r"\s+", " ", p) for p in re.findall(r"^(\w[^;{}#]*\([^;{}]*\));", text, re.M)]
    return {re.search(r"(\w+)\(", p)[1]: p for p in found if not p.startswith("static_assert")}


def block(path="bindings/rust/src/raw.rs"):
    """Those of the Rust file."""
    with open(path, encoding="ascii") as f:
        text = re.sub(r"\s+", " ", re.sub(r"//.*", "", f.read()))
    found = [p.replace("( ", "(").replace(", )", ")") for p in re.findall(r"pub (fn [^;]*);", text)]
    return {re.search(r"fn (\w+)", p)[1]: p for p in found}


def compared(ours, theirs):
    """A test for each function, and one that there are some."""
    for name in sorted({*ours, *theirs}):
        wrong = None if ours.get(name) == theirs.get(name) else f"Rattle has {ours.get(name)}, and it is {theirs.get(name)}"
        yield f"prototype of {name}", wrong
    yield "some prototypes", None if len(ours) > 10 else f"only {len(ours)} exported functions were found"
