"""What crosses to C, read twice: from the Rattle source of the crate `calstwid_exports`, and from include/calstwid.h.

Both readers give the same sort of thing, an `Abi`, in C's words: functions with what they return and their arguments (a list being
a pointer and a length), structs with their fields, and the numbers of the answers. What a grammar does not know is a fault, not
passed over.
"""
import glob
import os
import re

EXPORTS, REFUSALS, HEADER = "crates/calstwid_exports/src", "crates/refusals/src/refusals.rt", "include/calstwid.h"
PREFIX = "calstwid_"
# a Rattle type and its C type
SCALARS = {"f64": "double", "u64": "uint64_t", "u32": "uint32_t", "u8": "uint8_t", "usize": "size_t", "bool": "bool"}
# where each limit stands that the header repeats: the definition's file and its words
LIMITS = {
    "CALSTWID_MAX_PILLARS": ("crates/refusals/specs/Faults.antt", r"pillar_faults \w+ \w+ = record \{\s*size = ltb (\d+) "),
    "CALSTWID_MAX_CURVE": ("crates/refusals/specs/Faults.antt", r"curve_faults \w+ \w+ = record \{\s*size = ltb (\d+) "),
    "CALSTWID_MAX_COUPONS": ("crates/refusals/specs/Faults.antt", r"coupon_faults \w+ \w+ = record \{\s*size = ltb (\d+) "),
    "CALSTWID_MAX_GRID": ("crates/refusals/specs/Faults.antt", r"grid_faults [\w ]+ = record \{\s*size = ltb (\d+) "),
    "CALSTWID_MAX_DRAWS": ("crates/draws/specs/Draws.antt", r"draw_rules \w+ \w+ = rule R\.Size \(ltb (\d+) "),
    "CALSTWID_MAX_TERMS": ("crates/pricer_critical_rate/specs/Find.antt", r"rule R\.Size \(ltb (\d+) \(length cs\)"),
    "CALSTWID_MAX_BASKET": ("crates/basket_entries/specs/Entries.antt", r"size_wrong [\w ]+ = ltb (\d+) "),
    "CALSTWID_MAX_STEPS": ("crates/hullwhite_transitions/specs/Transition.antt", r"rule R\.Size \([^\n]*ltb (\d+) steps"),
    "CALSTWID_MAX_FILE_BYTES": ("crates/file_layout/specs/Layout.antt", r"bounded size = leb size (\d+) "),
    "CALSTWID_MAX_JOBS": ("crates/file_layout/specs/Layout.antt", r"records 40 (\d+) l\.jobs"),
    "CALSTWID_PIECE_BYTES": (EXPORTS + "/file.rt", r"out\.len\(\) < (\d+);"),
}


class Fault(Exception):
    """A text that its grammar does not know."""


class Abi:
    def __init__(self):
        self.functions = {}  # name: (what it returns, [(argument, C type)])
        self.structs = {}  # name: [(field, C type)]
        self.answers = {}  # enumerator: number
        self.limits = {}  # name: number
        self.sentences = {}  # enumerator: sentence (the header alone has them)
        self.faults = []  # what is wrong with a text by itself
        self.listed = {}  # function: the answers that its comment lists (the header alone has them)


def snake(name):
    """MeanReversion as mean_reversion, D1D2Report as d1_d2_report."""
    return re.sub(r"(?<!^)(?=[A-Z])", "_", name).lower()


def pieces(text, mark):
    """The parts of a text between marks, the last of which may be closed by one."""
    parts = [part.strip() for part in text.split(mark)]
    return parts[:-1] if parts and not parts[-1] else parts


# ---- Rattle


def rattle_texts(root):
    """The sources that this reads, by their paths."""
    paths = sorted(glob.glob(os.path.join(root, EXPORTS, "**", "*.rt"), recursive=True))
    paths += sorted(glob.glob(os.path.join(root, "crates", "*", "src", "*.rt")))
    paths += [os.path.join(root, path) for path, _ in LIMITS.values()]
    texts = {}
    for path in filter(os.path.exists, paths):
        with open(path, encoding="utf-8") as file:
            texts[os.path.relpath(path, root)] = file.read()
    return texts


def c_arguments(name, kind, where):
    found = re.fullmatch(r"&\s*(mut )?\s*\[(\w+)\]", kind)
    if found and found[2] in SCALARS:
        return [(name, ("" if found[1] else "const ") + SCALARS[found[2]] + " *"), ("n_" + name, "size_t")]
    if kind in SCALARS:
        return [(name, SCALARS[kind])]
    raise Fault(f"{where}: the argument `{name}: {kind}` is of no type that C is given")


def c_field(name, kind, where):
    found = re.fullmatch(r"\[(\w+); (\d+)\]", kind)
    if found and found[1] in SCALARS:
        return name, f"{SCALARS[found[1]]}[{found[2]}]"
    if kind in SCALARS:
        return name, SCALARS[kind]
    raise Fault(f"{where}: the field `{name}: {kind}` is of no type that C is given")


def read_struct(texts, name, where, uses, faults):
    """A report: in the exporting crate, or in the crate from which the exporting file takes it."""
    crate = uses.get(name)
    folder = EXPORTS if crate is None else f"crates/{crate}/src"
    shape = r"((?:#\[[^\]]*\]\s*)*)pub struct %s\s*\{([^{}]*)\}" % name
    found = [(path, one) for path in texts if path.startswith(folder + "/") for one in re.finditer(shape, texts[path])]
    if len(found) != 1:
        raise Fault(f"{where}: {len(found)} structs `{name}` in {folder}")
    path, one = found[0]
    if "#[repr(C)]" not in one[1]:
        faults.append(f"{path}: `{name}` crosses to C and is not marked #[repr(C)]")
    fields = []
    for part in pieces(one[2], ","):
        field = re.fullmatch(r"(?:pub )?(\w+):\s*(.+)", part, re.S)
        if field is None:
            raise Fault(f"{path}: `{name}`: the field `{part}` is not understood")
        fields.append(c_field(field[1], " ".join(field[2].split()), f"{path}: `{name}`"))
    return fields


def read_rattle(texts):
    abi = Abi()
    texts = {path: re.sub(r"//[^\n]*", "", text) if path.endswith(".rt") else text for path, text in texts.items()}
    own = {path: text for path, text in texts.items() if path.startswith(EXPORTS + "/")}
    if not own:
        raise Fault(f"{EXPORTS}: no source")
    for path, text in own.items():
        uses = {name: crate for crate, name in re.findall(r"^use (\w+)::(\w+);", text, re.M) if crate not in ("super", "crate", "self")}
        for crate, names in re.findall(r"^use (\w+)::\{([^}]*)\};", text, re.M):
            uses.update((name.strip(), crate) for name in names.split(",") if crate not in ("super", "crate", "self"))
        shape = r'#\[unsafe\(no_mangle\)\]\s*pub extern "C" fn (\w+)\s*\(([^()]*)\)\s*->\s*(\w+)\s*(.*?)^\}'
        found = list(re.finditer(shape, text, re.S | re.M))
        for words in ('extern "C"', "no_mangle"):
            if text.count(words) != len(found):
                raise Fault(f"{path}: `{words}` stands {text.count(words)} times and {len(found)} functions are understood")
        for one in found:
            name, where = one[1], f"{path}: `{one[1]}`"
            if name in abi.functions:
                raise Fault(f"{where} stands twice")
            if re.search(r"^\s*requires\b", one[4], re.M):
                abi.faults.append(f"{where} requires something of its caller, which no check holds C to")
            arguments = []
            for part in pieces(one[2], ","):
                argument = re.fullmatch(r"(\w+):\s*(.+)", part, re.S)
                if argument is None:
                    raise Fault(f"{where}: the argument `{part}` is not understood")
                arguments += c_arguments(argument[1], " ".join(argument[2].split()), where)
            if one[3] in SCALARS:
                returned = SCALARS[one[3]]
            else:
                returned = PREFIX + snake(one[3])
                fields = read_struct(texts, one[3], where, uses, abi.faults)
                if abi.structs.setdefault(returned, fields) != fields:
                    raise Fault(f"{where}: two structs have the C name `{returned}`")
            abi.functions[name] = (returned, arguments)
    refusals = texts.get(REFUSALS, "")
    variants = re.search(r"pub enum Refusal \{([^{}]*)\}", refusals)
    arms = re.search(r"impl From<Refusal> for u64 \{.*?match refusal \{([^{}]*)\}", refusals, re.S)
    if variants is None or arms is None:
        raise Fault(f"{REFUSALS}: no `Refusal` or no number of it")
    numbers = dict(re.findall(r"Refusal::(\w+) => (\d+),", arms[1]))
    if sorted(numbers) != sorted(pieces(variants[1], ",")):
        raise Fault(f"{REFUSALS}: the numbers and `Refusal` have other variants")
    abi.answers = {"CALSTWID_SERVED": 0}
    abi.answers.update(("CALSTWID_" + snake(name).upper(), int(number)) for name, number in numbers.items())
    for name, (path, shape) in LIMITS.items():
        values = set(re.findall(shape, texts.get(path, "")))
        if len(values) != 1:
            raise Fault(f"{path}: {name} is not found once but as {sorted(values)}")
        abi.limits[name] = int(values.pop())
    return abi


# ---- the header


def c_type(text, limits, where):
    """A C type and a name, of an argument or a field."""
    text = " ".join(text.replace("*", " * ").split())
    found = re.fullmatch(r"((?:const )?\w+(?: \*)?) (\w+)(?:\[(\w+)\])?", text)
    if found is None:
        raise Fault(f"{where}: `{text}` is not understood")
    kind = found[1]
    if found[3]:
        if found[3] not in limits and not found[3].isdigit():
            raise Fault(f"{where}: `{found[3]}` is no number")
        kind += f"[{limits.get(found[3], found[3])}]"
    return found[2], kind


def read_header(text):
    abi = Abi()
    # the answers that each comment lists belong to the functions between it and the next comment
    for comment, after in re.findall(r"/\*(.*?)\*/(.*?)(?=/\*|\Z)", text, re.S):
        listed = re.search(r"\bAnswers? ((?:\d+, )*\d+)\b", " ".join(comment.replace("*", " ").split()))
        for name in re.findall(r"\b(%s\w+)\(" % PREFIX, after):
            if listed:
                abi.listed[name] = [int(number) for number in listed[1].split(", ")]
    text = re.sub(r"/\*.*?\*/", " ", text, flags=re.S)
    text = re.sub(r"^#ifdef __cplusplus\n.*?^#endif\n", "", text, flags=re.S | re.M)
    for name, value in re.findall(r"^#define (\w+) (\d+)$", text, re.M):
        abi.limits[name] = int(value)
    text = re.sub(r"^#(?:define \w+(?: \d+)?|ifndef CALSTWID_H|include <std(?:bool|def|int)\.h>|endif)$", "", text, flags=re.M)
    sentence = r"static inline const char \*calstwid_sentence\(uint64_t answer\)\s*\{(.*?)^\}"
    body = re.search(sentence, text, re.S | re.M)
    if body is None:
        raise Fault("no `calstwid_sentence`")
    for name, words in re.findall(r'case (\w+):\s*return ((?:"[^"]*"\s*)+);', body[1]):
        abi.sentences[name] = "".join(re.findall(r'"([^"]*)"', words))
    text = re.sub(sentence, "", text, flags=re.S | re.M)
    while text.strip():
        text = text.strip()
        found = re.match(r"enum calstwid_answer\s*\{([^{}]*)\}\s*;", text)
        if found:
            for part in pieces(found[1], ","):
                one = re.fullmatch(r"(\w+) = (\d+)", part)
                if one is None or one[1] in abi.answers:
                    raise Fault(f"the enumerator `{part}` is not understood, or stands twice")
                abi.answers[one[1]] = int(one[2])
            text = text[found.end():]
            continue
        found = re.match(r"typedef struct (\w+)\s*\{([^{}]*)\}\s*(\w+)\s*;", text)
        if found:
            if found[1] != found[3] or found[1] in abi.structs:
                raise Fault(f"the struct `{found[1]}` has another name too, or stands twice")
            abi.structs[found[1]] = [c_type(part, abi.limits, f"`{found[1]}`") for part in pieces(found[2], ";")]
            text = text[found.end():]
            continue
        found = re.match(r"(\w+) (\w+)\(([^()]*)\)\s*;", text)
        if found:
            if found[2] in abi.functions:
                raise Fault(f"the function `{found[2]}` stands twice")
            abi.functions[found[2]] = (found[1], [c_type(part, abi.limits, f"`{found[2]}`") for part in pieces(found[3], ",")])
            text = text[found.end():]
            continue
        raise Fault("not understood: " + " ".join(text[:80].split()))
    return abi


def header_text(root):
    with open(os.path.join(root, HEADER), encoding="utf-8") as file:
        return file.read()
