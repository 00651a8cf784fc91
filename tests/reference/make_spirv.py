#!/usr/bin/env python3
"""Write the crate `spirv` (enums of the SPIR-V Specification) from the registry's JSON.

    make_spirv.py GRAMMAR_FOLDER > spirv.rs

GRAMMAR_FOLDER holds spirv.core.grammar.json and extinst.glsl.std.450.grammar.json
(Debian package spirv-headers). The published Rust names these enums through the
crate `spirv`, which is generated from the same files; names follow that crate:
the `Op` prefix is dropped, an enum in which a name starts with a digit gets its
own name in front of all of them, and bits are in capitals. One thing more is written, which
that crate has not and the driver wants: which opcodes have a result type and a result id.
"""

import json
import re
import sys
from pathlib import Path


def numeric(value):
    return int(value, 0) if isinstance(value, str) else value


def value_enum(kind, rows):
    """An enum with `from_number`; a second name of one number is a constant."""
    cases, aliases, first = [], [], {}
    prefix = kind if any(name[0].isdigit() for name, _ in rows) else ""
    for name, value in rows:
        name = prefix + name
        if value in first:
            aliases.append((name, first[value]))
        else:
            first[value] = name
            cases.append((name, value))
    out = ["#[repr(u32)]", "#[derive(Clone, Copy, Debug, PartialEq, Eq, PartialOrd, Ord, Hash)]"]
    out += [f"pub enum {kind} {{"] + [f"    {n} = {v}," for n, v in cases] + ["}"]
    out += [f"impl {kind} {{"]
    out += [f"    pub const {a}: Self = Self::{n};" for a, n in aliases if a != n]
    out += ["    pub const fn from_number(number: u32) -> Option<Self> {", "        Some(match number {"]
    out += [f"            {v} => Self::{n}," for n, v in cases]
    out += ["            _ => return None,", "        })", "    }", "}"]
    return out


def results(instructions):
    """A function that says of an opcode whether it has a result type, and whether it has a result id."""
    rows = {}
    for i in instructions:
        kinds = [operand["kind"] for operand in i.get("operands", [])]
        typed, declares = "IdResultType" in kinds, "IdResult" in kinds
        if declares:
            # The words that the driver takes them from.
            assert kinds.index("IdResult") == typed
            rows.setdefault((typed, declares), {})[i["opcode"]] = None
    out = ["pub const fn results_of(opcode: u32) -> (bool, bool) {", "    match opcode {"]
    for (typed, declares), opcodes in rows.items():
        out += [f"        {' | '.join(map(str, opcodes))} => ({typed}, {declares}),".replace("True", "true").replace("False", "false")]
    return out + ["        _ => (false, false),", "    }", "}"]


def bit_enum(kind, rows):
    def capitals(name):
        name = re.sub(r"([a-z0-9])([A-Z])", r"\1_\2", name)
        return re.sub(r"([A-Z])([A-Z][a-z])", r"\1_\2", name).upper()

    out = ["bitflags::bitflags! {", "    #[derive(Clone, Copy, Debug, PartialEq, Eq, Hash)]"]
    out += [f"    pub struct {kind}: u32 {{"]
    out += [f"        const {capitals(n)} = {v};" for n, v in rows]
    return out + ["    }", "}"]


def main(folder):
    core = json.loads((folder / "spirv.core.grammar.json").read_text())
    glsl = json.loads((folder / "extinst.glsl.std.450.grammar.json").read_text())
    out = [
        "#![allow(non_upper_case_globals, non_camel_case_types)]",
        "pub type Word = u32;",
        f"pub const MAGIC_NUMBER: u32 = {core['magic_number']};",
    ]
    rows = [(i["opname"].removeprefix("Op"), i["opcode"]) for i in core["instructions"]]
    out += value_enum("Op", rows)
    out += results(core["instructions"])
    out += value_enum("GLOp", [(i["opname"], i["opcode"]) for i in glsl["instructions"]])
    for kind in core["operand_kinds"]:
        if kind["category"] not in ("ValueEnum", "BitEnum"):
            continue
        rows = [(e["enumerant"], numeric(e["value"])) for e in kind["enumerants"]]
        make = value_enum if kind["category"] == "ValueEnum" else bit_enum
        out += make(kind["kind"], rows)
    print("\n".join(out))


if __name__ == "__main__":
    main(Path(sys.argv[1]))
