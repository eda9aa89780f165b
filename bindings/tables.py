#!/usr/bin/env python3
"""Writes what the bindings have of the crate em_c: numbers, layouts, the types of calls, and the version.

    bindings/tables.py              writes them anew
    bindings/tables.py --check      says which of them are not as the crate has them; the status is 1 where one is not
    bindings/tables.py --check DIR  the same of a copy of bindings/ in another folder

Whole files are _tables.py and _refusals.py of bindings/python/bunjelav, tables.rs and raw.rs of bindings/rust/src, and
texts.c and exports.map of bindings/c. In bunjelav.h only the numbers, the fields and the types are written: comments and
the names of parameters stay as they are there. Of bunjelav.pc, Cargo.toml, pyproject.toml and page/page.html it is the
version. What the C of bindings/c has of its own, ten calls and four layouts, is written for Rust and Python of what
stands below, and compared in bunjelav.h.
"""
import os
import re
import sys
import textwrap
from pathlib import Path

sys.dont_write_bytecode = True
import crate  # noqa: E402
from crate import Call, Crate, Field, words_of  # noqa: E402

HERE = Path(__file__).resolve().parent
NOTICE = "Written by bindings/tables.py, of the crate em_c: change it there, and run that."
LAYOUTS = {"EmField": "em_field_row", "EmFifo": "em_fifo_state", "EmNote": "em_note", "EmRegister": "em_register",
           "EmWatch": "em_watch", "EmChange": "em_change"}
# What the C of bindings/c has that the crate has not: calls, and layouts as the header has them.
OWN_CALLS = (
    "em_attach(em_machine *machine, const em_ram *ram);",
    "em_detach(em_machine *machine);",
    "em_record_to(em_machine *machine, const char *path);",
    "em_record_mapped(em_machine *machine, const char *path);",
    "em_recording_status(em_machine *machine, int *error);",
    "em_source(em_machine *machine, const char *file, uint32_t line);",
    "em_save(const em_machine *machine, const char *path);",
    "em_let_go_always(em_machine *machine, bool always);",
    "em_pcap_write(const em_machine *machine, const char *path, const uint64_t *nanoseconds);",
    "em_pcap_open(em_pcap *pcap, const char *path);",
)
# Of these the ones that give a text.
OWN_TEXTS = (
    "const char *em_strerror(em_code code);",
    "const char *em_version(void);",
)
RUST_OWN_CALLS = (
    "em_attach(machine: *mut Handle, ram: *const Ram) -> u32;",
    "em_detach(machine: *mut Handle) -> u32;",
    "em_record_to(machine: *mut Handle, path: *const c_char) -> u32;",
    "em_record_mapped(machine: *mut Handle, path: *const c_char) -> u32;",
    "em_recording_status(machine: *mut Handle, error: *mut c_int) -> u32;",
    "em_source(machine: *mut Handle, file: *const c_char, line: u32) -> u32;",
    "em_save(machine: *const Handle, path: *const c_char) -> u32;",
    "em_let_go_always(machine: *mut Handle, always: bool) -> u32;",
    "em_pcap_write(machine: *const Handle, path: *const c_char, nanoseconds: *const u64) -> u32;",
    "em_pcap_open(pcap: *mut Pcap, path: *const c_char) -> u32;",
    "em_strerror(code: u32) -> *const c_char;",
    "em_version() -> *const c_char;",
)
PYTHON_OWN_CALLS = (
    '"em_attach": [POINTER(Handle), POINTER(Ram)],',
    '"em_detach": [POINTER(Handle)],',
    '"em_record_to": [POINTER(Handle), c_char_p],',
    '"em_record_mapped": [POINTER(Handle), c_char_p],',
    '"em_recording_status": [POINTER(Handle), POINTER(c_int)],',
    '"em_source": [POINTER(Handle), c_char_p, c_uint32],',
    '"em_save": [POINTER(Handle), c_char_p],',
    '"em_let_go_always": [POINTER(Handle), c_bool],',
    '"em_pcap_write": [POINTER(Handle), c_char_p, POINTER(c_uint64)],',
    '"em_pcap_open": [POINTER(Pcap), c_char_p],',
    '"em_strerror": [c_uint32],',
    '"em_version": [],',
)
# In bunjelav.h, what stands before a call that gives a number; an older header may have the number's type alone.
GIVES = r"(?:EM_CHECKED )?(?:em_code|uint32_t)"
# The first version of the shared library's symbols, and all there is.
SYMBOLS = "BUNJELAV_1"
WIDE = ("EM_CODE_WIDE", 0x7FFFFFFF, "none: it gives the type 32 bits, in which numbers of later versions have room")
C_OF_ATTACH = {
    "em_region": "uint64_t base; uint64_t size; uint8_t *octets;",
    "em_ram": "void *context; bool (*read)(void *context, uint64_t address, uint8_t *out, size_t length); "
              "bool (*write)(void *context, uint64_t address, const uint8_t *octets, size_t length); "
              "const em_region *regions; size_t count;",
    "em_machine": "bool made; void *held; em_ram ram; uint32_t state;",
    "em_pcap": "bool made; void *held;",
}
# Of fields of which the crate says nothing, since it says so of the layout: those of a register.
SAID = {"offset": "Its offset.", "value": "What a read of it would give."}
SHORTER = {"receive idle": "rx idle", "transmit idle": "tx idle"}
C_TYPES = {"u8": "uint8_t", "u16": "uint16_t", "u32": "uint32_t", "u64": "uint64_t", "usize": "size_t", "bool": "bool"}


def c_layout(name: str) -> str:
    """EmRingHead: em_ring_head."""
    return LAYOUTS.get(name) or "_".join(words_of(name))


def constant_name(words: str) -> str:
    """A kind's name in C."""
    return SHORTER.get(words, words).removeprefix("dropped: ").replace(" ", "_").upper()


def variant_name(words: str) -> str:
    """And in Rust."""
    return "".join(word.capitalize() for word in SHORTER.get(words, words).removeprefix("dropped: ").split())


def refusal_constant(name: str) -> str:
    return "_".join(words_of(name)).upper()


def passed(parameter: Field, call: Call) -> list[tuple[str, str, str, str]]:
    """What a parameter of the crate is to its callers, one or two parameters: kind (value, in, out), type, how many
    octets or elements of an array, and name."""
    name, kind = parameter.name, parameter.kind
    if kind == "&mut EmMachine":
        # (of two handles the other one is written)
        return [("in" if call.looks and name == "machine" else "out", "EmMachine", "", name)]
    array = re.fullmatch(r"&(mut )?\[(\w+); (\w+)\]", kind)
    if array:
        count = {"EEPROM_WORDS": "64", "RULES": "10"}.get(array[3], array[3])
        return [("out" if array[1] else "in", array[2], count, name)]
    there = re.fullmatch(r"&(mut )?\[(\w+)\]", kind)
    if there:
        how, size = ("out", "room") if there[1] else ("in", "length")
        return [(how, there[2], "", name), ("value", "usize", "", size)]
    place = re.fullmatch(r"&(mut )?(\w+)", kind)
    if place:
        return [("out" if place[1] else "in", place[2], "", name)]
    return [("value", kind, "", name)]


def all_passed(call: Call) -> list[tuple[str, str, str, str]]:
    return [one for parameter in call.parameters for one in passed(parameter, call)]


# ---- C


def c_parameter(one: tuple[str, str, str, str], name: str) -> str:
    how, kind, count, _ = one
    base = "em_machine" if kind == "EmMachine" else C_TYPES.get(kind) or c_layout(kind)
    if count:
        return f"{'const ' if how == 'in' else ''}{base} {name}[{count}]"
    return f"{base} {name}" if how == "value" else f"{'const ' if how == 'in' else ''}{base} *{name}"


def c_call(call: Call, names: list[str]) -> str:
    lines = [f"{'EM_CHECKED em_code' if call.gives else 'void'} {call.name}("]
    indent = " " * len(lines[0])
    words = [c_parameter(one, name) for one, name in zip(all_passed(call), names)]
    for word in [f"{word}, " for word in words[:-1]] + [f"{words[-1]});"]:
        fits = len(lines[-1]) + len(word.rstrip()) <= 120
        lines = [*lines[:-1], lines[-1] + word] if fits else [*lines[:-1], lines[-1].rstrip(), indent + word]
    return "\n".join(lines)


def names_there(text: str, call: Call) -> list[str]:
    """The names that the header has for a call's parameters; where it has not as many, those of the crate."""
    there = re.search(rf"^[\w ]+ {call.name}\((.*?)\);", text, re.M | re.S)
    names = re.findall(r"(\w+)(?:\[\d+\])?(?:,|$)", there[1]) if there else []
    ours = [one[3] for one in all_passed(call)]
    return names if len(names) == len(ours) else ours


def all_names(made: Crate) -> list[str]:
    """The names of all calls, those of the C beside the crate too."""
    own = [call.partition("(")[0] for call in OWN_CALLS] + [re.search(r"em_\w+", call)[0] for call in OWN_TEXTS]
    return sorted([call.name for call in made.calls] + own)


def with_calls(text: str, made: Crate) -> str:
    declared = re.findall(rf"^(?:{GIVES} |void |const char \*)(em_\w+)\(", text, re.M)
    missing = set(all_names(made)) ^ set(declared)
    if missing:
        raise SystemExit(f"bunjelav.h and the crate don't have the same calls: {', '.join(sorted(missing))}")
    for call in made.calls:
        line = c_call(call, names_there(text, call))
        text = re.sub(rf"^(?:{GIVES}|void) {call.name}\(.*?\);", lambda _: line, text, count=1, flags=re.M | re.S)
    return text


def with_entries(text: str, enum: str, rows: list[tuple[str, int, str]]) -> str:
    """An enum of the header with these names and numbers; what stands behind each stays."""
    inside = re.search(rf"typedef enum {enum} \{{\n(.*?)\n\}}", text, re.S)
    behind = dict(re.findall(r"^  (\w+) = \w+,?(\s*/\*.*?\*/)", inside[1], re.M | re.S))
    lines = []
    for at, (name, number, said) in enumerate(rows):
        comma = "," if at < len(rows) - 1 else ""
        shown = f"0x{number:X}" if name == WIDE[0] else number
        lines.append(f"  {name} = {shown}{comma}{behind.get(name) or f' /* {said} */'}")
    return text.replace(inside[1], "\n".join(lines), 1)


def with_layout(text: str, layout: crate.Layout, made: Crate) -> str:
    inside = re.search(rf"typedef struct {c_layout(layout.name)} \{{\n(.*?)\n\}}", text, re.S)
    if not inside:
        raise SystemExit(f"bunjelav.h has no struct {c_layout(layout.name)}")
    behind = dict(re.findall(r"^  \w+ (\w+)(?:\[\d+\])?;(\s*/\*.*?\*/)", inside[1], re.M | re.S))
    lines = []
    for field in layout.fields:
        array = re.fullmatch(r"\[(\w+); (\w+)\]", field.kind)
        kind, size = (array[1], f"[{made.sizes[array[2]]}]") if array else (field.kind, "")
        # (a line and a name are text)
        of = "char" if array and array[2] in ("LINE", "NAME") else C_TYPES[kind]
        lines.append(f"  {of} {field.name}{size};{behind.get(field.name, '')}")
    return text.replace(inside[1], "\n".join(lines), 1)


def with_number(text: str, name: str, value: str) -> str:
    if not re.search(rf"^#define {name} ", text, re.M):
        raise SystemExit(f"bunjelav.h has no line for {name}")
    return re.sub(rf"^#define {name} .*$", f"#define {name} {value}", text, flags=re.M)


def with_own(text: str) -> str:
    """The header, which has the layouts and calls of the C beside the crate as they are written here."""
    for name, fields in C_OF_ATTACH.items():
        inside = re.search(rf"typedef struct {name} \{{\n(.*?)\n\}} {name};", text, re.S)
        there = " ".join(re.sub(r"/\*.*?\*/", "", inside[1], flags=re.S).split()) if inside else ""
        if there != fields:
            raise SystemExit(f"bunjelav.h has another struct {name}: {there}")
    for call in (*(f"EM_CHECKED em_code {call}" for call in OWN_CALLS), *OWN_TEXTS):
        if f"\n{call}\n" not in text:
            raise SystemExit(f"bunjelav.h has no {call}")
    return text


def header(text: str, made: Crate) -> str:
    codes = [(f"EM_{refusal_constant(it.name)}", it.number, it.sentence) for it in made.refusals]
    text = with_entries(text, "em_code", [("EM_OK", 0, "nothing refused it"), *codes, WIDE])
    text = with_entries(text, "em_kind", [(f"EM_{constant_name(words)}", n, words) for words, n in made.kinds])
    text = with_entries(text, "em_watched", [(f"EM_WATCH_{words.upper()}", n, words) for words, n in made.watches])
    for enum, prefix, rows in (("em_rule", "EM_WHY", made.rules), ("em_warned", "EM_WARN", made.warnings),
                               ("em_trouble", "EM_TROUBLE", made.troubles)):
        named = [(f"{prefix}_{refusal_constant(name)}", n, said) for name, n, said in rows]
        text = with_entries(text, enum, named)
    profiles = [(f"EM_PROFILE_{name.upper()}", n, said) for name, n, said in made.profiles]
    text = with_entries(text, "em_profiles", profiles)
    text = with_entries(text, "em_rings", [(f"EM_{name.upper()}_RING", n, f"the {name} ring") for name, n in made.rings])
    for layout in made.layouts:
        text = with_layout(text, layout, made)
    text = with_own(with_calls(text, made))
    major, minor, patch = map(int, made.version.split("."))
    for name, value in (("EM_REGISTERS", f"{made.registers}"), ("EM_MOST_SENT", f"{made.most_sent}"),
                        ("EM_VERSION", f'"{made.version}"'),
                        ("EM_VERSION_NUMBER", f"0x{major:02X}{minor:02X}{patch:02X}")):
        text = with_number(text, name, value)
    return text


def c_texts(made: Crate) -> str:
    lines = ["/* The texts of the refusals, and the version.", "", f"   {NOTICE} */", '#include "bunjelav.h"', "",
             "const char *em_version(void) { return EM_VERSION; }", "", "const char *em_strerror(em_code code) {",
             "  switch (code) {", '    case EM_OK: return "Ok: nothing refused it";']
    lines += [f'    case EM_{refusal_constant(it.name)}: return "{it.name}: {it.sentence}";' for it in made.refusals]
    return "\n".join([*lines, '    default: return "Unknown: no refusal has the number";', "  }", "}", ""])


def exports(made: Crate) -> str:
    lines = [f"/* {NOTICE} */", f"{SYMBOLS} {{", "  global:"]
    lines += [f"    {name};" for name in all_names(made)]
    return "\n".join([*lines, "  local:", "    *;", "};", ""])


# ---- Rust


def rust_parameter(one: tuple[str, str, str, str]) -> str:
    how, kind, _, name = one
    base = "Handle" if kind == "EmMachine" else kind.removeprefix("Em")
    way = {"value": "", "in": "*const ", "out": "*mut "}[how]
    return f"{name}: {way}{base}"


def commented(docs: str, indent: str = "", mark: str = "/// ") -> list[str]:
    return textwrap.wrap(docs, 120, initial_indent=indent + mark, subsequent_indent=indent + mark) if docs else []


def rust_struct(layout: crate.Layout, made: Crate) -> list[str]:
    name = layout.name.removeprefix("Em")
    is_seen = name in ("Fifo", "Range", "Register", "RingSetup")
    seen = "pub" if is_seen else "pub(crate)"
    derived = "Clone, Copy, PartialEq, Eq, Hash, Debug, Default" if is_seen else "Clone, Copy, Default"
    # (an array as long as a line has no Default)
    lined = any("; LINE]" in field.kind for field in layout.fields)
    derived = "Clone, Copy, Debug" if lined else derived
    lines = ["", *commented(layout.docs), "#[repr(C)]", f"#[derive({derived})]", f"{seen} struct {name} {{"]
    for field in layout.fields:
        kind = re.sub(r"; (\w+)\]", lambda size: f"; {made.sizes[size[1]]}]", field.kind)
        docs = field.docs or SAID.get(field.name, "")
        lines += [*(commented(docs, "    ") if is_seen else []), f"    pub {field.name}: {kind},"]
    return [*lines, "}"] + (rust_blank(name, layout, made) if lined else [])


def rust_blank(name: str, layout: crate.Layout, made: Crate) -> list[str]:
    """A struct that tells nothing yet."""
    lines = ["", f"impl {name} {{", f"    pub(crate) const fn blank() -> {name} {{", f"        {name} {{"]
    for field in layout.fields:
        array = re.fullmatch(r"\[\w+; (\w+)\]", field.kind)
        lines.append(f"            {field.name}: {f'[0; {made.sizes[array[1]]}]' if array else '0'},")
    return [*lines, "        }", "    }", "}"]


RUST_OF_ATTACH = """\
/// A part of memory of the caller's, as [`crate::Machine::attach_regions`] takes it.
#[repr(C)]
#[derive(Clone, Copy, Debug)]
pub struct Region {
    /// Its address in guest memory.
    pub base: u64,
    /// How many octets it has.
    pub size: u64,
    /// Where they lie.
    pub octets: *mut u8,
}

pub(crate) type Read = unsafe extern "C" fn(*mut c_void, u64, *mut u8, usize) -> bool;
pub(crate) type Write = unsafe extern "C" fn(*mut c_void, u64, *const u8, usize) -> bool;

#[repr(C)]
#[derive(Clone, Copy)]
pub(crate) struct Ram {
    pub context: *mut c_void,
    pub read: Option<Read>,
    pub write: Option<Write>,
    pub regions: *const Region,
    pub count: usize,
}

impl Ram {
    pub(crate) const fn none() -> Ram {
        Ram { context: core::ptr::null_mut(), read: None, write: None, regions: core::ptr::null(), count: 0 }
    }

    pub(crate) fn is_some(&self) -> bool {
        self.read.is_some() || self.count > 0
    }
}

#[repr(C)]
pub(crate) struct Handle {
    pub made: bool,
    pub held: *mut c_void,
    pub ram: Ram,
    pub state: u32,
}

#[repr(C)]
pub(crate) struct Pcap {
    pub made: bool,
    pub held: *mut c_void,
}""".split("\n")


def rust_raw(made: Crate) -> str:
    lines = ["//! The layouts and the calls of bunjelav.h.", "//!", f"//! {NOTICE}", "use core::ffi::{c_char, c_int, c_void};", "",
             *RUST_OF_ATTACH]
    for layout in made.layouts:
        lines += rust_struct(layout, made)
    # (all are there, and not each is called)
    lines += ["", "#[allow(dead_code)]", 'extern "C" {']
    for call in made.calls:
        inside = ", ".join(map(rust_parameter, all_passed(call)))
        gives = " -> u32" if call.gives else ""
        line = f"    pub(crate) fn {call.name}({inside}){gives};"
        if len(line) > 120:
            inside = "".join(f"        {rust_parameter(one)},\n" for one in all_passed(call))
            line = f"    pub(crate) fn {call.name}(\n{inside}    ){gives};"
        lines.append(line)
    lines += [f"    pub(crate) fn {call}" for call in RUST_OWN_CALLS]
    return "\n".join([*lines, "}", ""])


def rust_enum(name: str, docs: list[str], rows: list[tuple[str, str]], other: str) -> list[str]:
    derived = "#[derive(Clone, Copy, PartialEq, Eq, Hash, Debug)]"
    lines = ["", *docs, derived, "#[non_exhaustive]", f"pub enum {name} {{"]
    for variant, said in rows:
        lines += [*commented(said, "    "), f"    {variant},"]
    return [*lines, *commented(other, "    "), "    Other(u32),", "}"]


def rust_tables(made: Crate) -> str:
    kinds = [(variant_name(words), n, words) for words, n in made.kinds]
    lines = ["//! Numbers and names of bunjelav.h.", "//!", f"//! {NOTICE}", "",
             "/// How many registers there are.", f"pub const REGISTERS: usize = {made.registers};", "",
             "/// Room in which each frame that a machine sends fits.",
             f"pub const MOST_SENT: usize = {made.most_sent:_};"]
    for words, n in made.watches:
        lines += ["", f"pub(crate) const WATCH_{words.upper()}: u32 = {n};"]
    for name, n in made.rings:
        lines += ["", f"pub(crate) const RING_{name.upper()}: u32 = {n};"]
    for name, n, _ in made.profiles:
        lines += ["", f"pub(crate) const PROFILE_{name.upper()}: u32 = {n};"]
    lines += rust_enum("Refusal", commented("Why a call did nothing."), [(it.name, it.docs) for it in made.refusals],
                       "Another number, which this binding does not know.")
    lines += ["", "/// Each refusal with its number.",
              f"pub(crate) const REFUSALS: [(Refusal, u32); {len(made.refusals)}] = ["]
    lines += [f"    (Refusal::{it.name}, {it.number})," for it in made.refusals]
    lines.append("];")
    for name, said, table, rows in (
        ("Rule", "By which rule an event did nothing.", "RULES", made.rules),
        ("Warned", "By which rule an access of a register has a warning.", "WARNINGS", made.warnings),
        ("Trouble", "What is wrong with a descriptor.", "TROUBLES", made.troubles),
    ):
        variants = [(variant, f"{docs[0].upper()}{docs[1:]}.") for variant, _, docs in rows]
        lines += rust_enum(name, commented(said), variants, "Another number, which this binding does not know.")
        lines += ["", f"/// Each {name.lower()} with its number.",
                  f"pub(crate) const {table}: [({name}, u32); {len(rows)}] = ["]
        lines += [f"    ({name}::{variant}, {n})," for variant, n, _ in rows]
        lines.append("];")
    lines += [*rust_enum("Kind", commented("What kind of event it was, with what came of it."),
                               [(variant, f"{words[0].upper()}{words[1:]}.") for variant, _, words in kinds],
                               "Another number, which this binding does not know."),
              "", "/// Each kind with its number, and what it is called.",
              f"pub(crate) const KINDS: [(Kind, u32, &str); {len(kinds)}] = ["]
    lines += [f'    (Kind::{variant}, {n}, "{words}"),' for variant, n, words in kinds]
    return "\n".join([*lines, "];", ""])


# ---- Python


def python_type(kind: str, made: Crate) -> str:
    array = re.fullmatch(r"\[(\w+); (\w+)\]", kind)
    if array:
        return f"{python_type(array[1], made)} * {made.sizes[array[2]]}"
    return {"usize": "c_size_t", "bool": "c_bool"}.get(kind) or f"c_uint{kind[1:]}"


def python_parameter(one: tuple[str, str, str, str], made: Crate) -> str:
    how, kind, _, _ = one
    if kind == "EmMachine":
        return "POINTER(Handle)"
    if how == "value":
        return python_type(kind, made)
    # octets are bytes, or any buffer
    if kind == "u8":
        return "c_void_p"
    return f"POINTER({kind.removeprefix('Em') if kind.startswith('Em') else python_type(kind, made)})"


PYTHON_OF_ATTACH = """

READ = CFUNCTYPE(c_bool, c_void_p, c_uint64, c_void_p, c_size_t)
WRITE = CFUNCTYPE(c_bool, c_void_p, c_uint64, c_void_p, c_size_t)


class Region(Structure):
    _fields_ = [("base", c_uint64), ("size", c_uint64), ("octets", c_void_p)]


class Ram(Structure):
    _fields_ = [
        ("context", c_void_p),
        ("read", READ),
        ("write", WRITE),
        ("regions", POINTER(Region)),
        ("count", c_size_t),
    ]


class Handle(Structure):
    _fields_ = [("made", c_bool), ("held", c_void_p), ("ram", Ram), ("state", c_uint32)]


class Pcap(Structure):
    _fields_ = [("made", c_bool), ("held", c_void_p)]""".split("\n")


def python(made: Crate) -> str:
    lines = ['"""Numbers, layouts and calls of bunjelav.h.', "", NOTICE, '"""',
             "from ctypes import CFUNCTYPE, POINTER, Structure, c_bool, c_char_p, c_int, c_size_t, c_uint8, c_uint16, c_uint32",
             "from ctypes import c_uint64, c_void_p",
             "", f'VERSION = "{made.version}"', f"REGISTERS = {made.registers}", f"MOST_SENT = {made.most_sent}",
             f"MOST_WATCHED = {made.sizes['MOST_OCTETS']}", "", "# by name, the number of each refusal", "REFUSALS = {"]
    lines += [f'    "{it.name}": {it.number},' for it in made.refusals]
    lines += ["}", "", "# by number, what each kind of event is called", "KINDS = {"]
    lines += [f'    {n}: "{words}",' for words, n in made.kinds]
    lines += ["}", "", "# by name, the number of each kind of watch", "WATCHES = {"]
    lines += [f'    "{words}": {n},' for words, n in made.watches]
    lines += ["}", "", "# by name, the number of each ring", "RINGS = {"]
    lines += [f'    "{name}": {n},' for name, n in made.rings]
    lines += ["}", "", "# by name, the number of each profile", "PROFILES = {"]
    lines += [f'    "{name.lower()}": {n},' for name, n, _ in made.profiles]
    for name, said, rows in (("RULES", "rule by which an event does nothing", made.rules),
                             ("WARNINGS", "rule by which an access has a warning", made.warnings),
                             ("TROUBLES", "thing that can be wrong with a descriptor", made.troubles)):
        lines += ["}", "", f"# by number, what each {said} is called", f"{name} = {{"]
        lines += [f'    {n}: "{" ".join(words_of(variant))}",' for variant, n, _ in rows]
    lines += ["}", *PYTHON_OF_ATTACH]
    for layout in made.layouts:
        lines += ["", "", f"class {layout.name.removeprefix('Em')}(Structure):", "    _fields_ = ["]
        lines += [f'        ("{field.name}", {python_type(field.kind, made)}),' for field in layout.fields]
        lines.append("    ]")
    lines += ["", "", "# by call, the types of what it takes", "CALLS = {"]
    for call in made.calls:
        inside = ", ".join(python_parameter(one, made) for one in all_passed(call))
        lines.append(f'    "{call.name}": [{inside}],')
    lines += [f"    {call}" for call in PYTHON_OWN_CALLS]
    lines += ["}", "", "# those that give a text, and its type", "TEXTS = {"]
    lines += [f'    "{re.search(r"em_[a-z_]+", call)[0]}": c_char_p,' for call in OWN_TEXTS]
    return "\n".join([*lines, "}", ""])


def python_refusals(made: Crate) -> str:
    names = ", ".join(f'"{name}"' for name in ["Refused", *(it.name for it in made.refusals)])
    lines = ['"""What the model refuses.', "", NOTICE, '"""', "__all__ = ["]
    lines += textwrap.wrap(names, 116, initial_indent="    ", subsequent_indent="    ")
    lines[-1] += ","
    lines += ["]", "", "", "class Refused(Exception):",
              '    """Why a call did nothing: each refusal is a class of its own below this one, of the refusal\'s name."""', "",
              "    # the refusal's number", "    number = 0",
              "    # of `run` how many steps, and of `sync_in` how many writes, went well before; they stay",
              "    # of `back` how many events were taken back", "    done = 0",
              "    # of an event by which rule it was refused, as `Machine.why` says", "    why: object = None",
             "    # of what is wrong with a capture where in its file it is", "    offset = 0"]
    for it in made.refusals:
        lines += ["", "", f"class {it.name}(Refused):", f'    """{it.docs}"""', "", f"    number = {it.number}"]
    return "\n".join([*lines, ""])


# ---- all of it


def versioned(text: str, made: Crate, pattern: str) -> str:
    return re.sub(pattern, lambda found: found[1] + made.version + found[2], text, count=1, flags=re.M)


def written(folder: Path, made: Crate) -> dict[Path, str]:
    """What each file has to be."""
    def there(name: str) -> str:
        return (folder / name).read_text()

    texts = {
        "c/bunjelav.h": header(there("c/bunjelav.h"), made),
        "c/texts.c": c_texts(made),
        "c/exports.map": exports(made),
        "c/bunjelav.pc": versioned(there("c/bunjelav.pc"), made, r"^(Version: ).*?($)"),
        "rust/Cargo.toml": versioned(there("rust/Cargo.toml"), made, r'^(version = ").*?(")'),
        "python/pyproject.toml": versioned(there("python/pyproject.toml"), made, r'^(version = ").*?(")'),
        "rust/src/raw.rs": rust_raw(made),
        "rust/src/tables.rs": rust_tables(made),
        "python/bunjelav/_tables.py": python(made),
        "python/bunjelav/_refusals.py": python_refusals(made),
    }
    # (a copy of the bindings alone has no page beside it)
    page = folder.parent / "page" / "page.html"
    if page.is_file():
        texts["../page/page.html"] = versioned(page.read_text(), made, r'(content="Bunjelav ).*?(")')
    return {folder / name: text for name, text in texts.items()}


def main(words: list[str]) -> int:
    if words and (words[0] != "--check" or len(words) > 2):
        print(__doc__, file=sys.stderr)
        return 64
    folder = Path(words[1]).resolve() if words[1:] else HERE
    differ = [(file, text) for file, text in written(folder, crate.read()).items()
              if not file.is_file() or file.read_text() != text]
    for file, text in differ:
        if words:
            print(f"{os.path.relpath(file, folder)} is not as the crate em_c has it: bindings/tables.py writes it anew")
        else:
            file.write_text(text)
    return 1 if words and differ else 0


if __name__ == "__main__":
    sys.exit(main(sys.argv[1:]))
