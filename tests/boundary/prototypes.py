"""The prototypes of the exported functions, read from the text of Rattle, C and Rust sources into one form.

A prototype is a list of (name, type) for the parameters, then the type returned. Types are Rust's for numbers, `*const T` and `*mut T` for
pointers, and `*const [T; N]` and `*mut [T; N]` for pointers to arrays. A lent slice is a pointer and, after it, its length.

A name is the one in the archive. C writes MPC106_RAW(read) for it, and Rust `pub fn read` among the functions `of_the_archive!`; both put a prefix with
the major version before it, which is passed to the reader here.
"""
import re

C_NUMBERS = {"uint8_t": "u8", "uint16_t": "u16", "uint32_t": "u32", "uint64_t": "u64", "size_t": "usize"}
NUMBERS = set(C_NUMBERS.values())
EXPORTED = r"mpc106_v\d+_\w+"


class Unreadable(Exception):
    pass


def without_comments(text):
    text = re.sub(r"/\*.*?\*/", " ", text, flags=re.S)
    return re.sub(r"//[^\n]*", "", text)


def parted(text):
    """The parameters between two brackets, split at the commas."""
    return [part.strip() for part in text.split(",") if part.strip()]


def named(parameter):
    name, _, kind = (part.strip() for part in parameter.partition(":"))
    return name, re.sub(r"\s+", " ", kind)


def number(kind, where):
    if kind not in NUMBERS:
        raise Unreadable(f"{where}: the type {kind}")
    return kind


def of_reference(kind, where):
    """`&[T; N]` or `&mut [T; N]`, or the same as a raw pointer, or a raw pointer to numbers; None for any other type."""
    match = re.fullmatch(r"(?:&|\*const )(mut )?\[(\w+); (\d+)\]|(\*mut) \[(\w+); (\d+)\]|\*(const|mut) (\w+)", kind)
    if not match:
        return None
    mutable, item, count, raw, raw_item, raw_count, pointer, single = match.groups()
    if single:
        return f"*{pointer} {number(single, where)}"
    way = "mut" if mutable or raw else "const"
    return f"*{way} [{number(item or raw_item, where)}; {count or raw_count}]"


def of_rattle(text):
    found = {}
    pattern = r'#\[unsafe\(no_mangle\)\]\s*pub extern "C" fn (\w+)\s*\(([^)]*)\)\s*(?:->\s*(\w+))?'
    for name, parameters, returned in re.findall(pattern, without_comments(text)):
        listed = []
        for parameter, kind in map(named, parted(parameters)):
            where = f"{name}, {parameter}"
            lent = re.fullmatch(r"&(mut )?\[(\w+)\]", kind)
            if lent:
                way = "mut" if lent[1] else "const"
                listed.append((parameter, f"*{way} {number(lent[2], where)}"))
                listed.append((f"{parameter}_length", "usize"))
            else:
                listed.append((parameter, of_reference(kind, where) or number(kind, where)))
        found[name] = (listed, returned or "nothing")
    return found


def of_c(text, prefix):
    """What a C file declares or defines; function calls are left out, since no type stands before them."""
    found = {}
    text = re.sub(r"\bMPC106_RAW\((\w+)\)", rf"{prefix}\1", without_comments(text))
    pattern = rf"\b(\w+)\s+({EXPORTED})\s*\(([^)]*)\)\s*[;{{]"
    for returned, name, parameters in re.findall(pattern, text):
        if returned == "return":
            continue
        listed = []
        for parameter in parted(parameters):
            where = f"{name}, {parameter}"
            match = re.fullmatch(r"(const )?\s*(\w+)\s*(\*?)\s*(\w+)(?:\[(\d+)\])?", re.sub(r"\s+", " ", parameter))
            if not match or match[2] not in C_NUMBERS:
                raise Unreadable(where)
            constant, item, star, label, count = match.groups()
            way = "const" if constant else "mut"
            kind = C_NUMBERS[item]
            if count:
                kind = f"*{way} [{kind}; {count}]"
            elif star:
                kind = f"*{way} {kind}"
            listed.append((label, kind))
        add(found, name, (listed, "nothing" if returned == "void" else C_NUMBERS.get(returned, returned)))
    return found


def of_rust(text, prefix):
    """Which of our functions a Rust file declares, and how, in `extern` blocks or as `of_the_archive!`."""
    found = {}
    text = without_comments(text)
    blocks = [("", block) for block in re.findall(r'extern\s+"C"\s*\{(.*?)\}', text, flags=re.S)]
    blocks += [(prefix, block) for block in re.findall(r"of_the_archive!\s*\{(.*?)\}", text, flags=re.S)]
    for before, block in blocks:
        for short, parameters, returned in re.findall(r"fn\s+(\w+)\s*\(([^)]*)\)\s*(?:->\s*(\w+))?\s*;", block):
            name = before + short
            if not re.fullmatch(EXPORTED, name):
                continue
            listed = []
            for parameter, kind in map(named, parted(parameters)):
                where = f"{name}, {parameter}"
                listed.append((parameter, of_reference(kind, where) or number(kind, where)))
            add(found, name, (listed, returned or "nothing"))
    return found


def add(found, name, prototype):
    if found.setdefault(name, prototype) != prototype:
        raise Unreadable(f"{name} is declared in two ways")


def shown(prototype):
    parameters, returned = prototype
    return f"({', '.join(f'{name}: {kind}' for name, kind in parameters)}) -> {returned}"
