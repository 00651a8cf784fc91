#!/usr/bin/env python3
"""Write sheets.txt: damaged sheets with the refusal that documents 01 and 02 give, and
sheets right beside them that fit.

    make.py DRIVER > sheets.txt

Every number below was read off these documents. DRIVER is the program that
tests/reference/run builds; it only supplies the published Rust's words for the
sheets that fit.
"""

import subprocess
import sys
from pathlib import Path

sys.dont_write_bytecode = True
sys.path.insert(0, str(Path(__file__).resolve().parent.parent / "reference"))
from sheets import *  # noqa: E402,F403

FITS = "fits"
ROWS = []


def row(reason, data, expected, question=""):
    """expected: a refusal's number, FITS, "yes" or "no"."""
    ROWS.append((reason, data, expected, question))


F = scalar(FLOAT, 4)
U = scalar(UINT, 4)
VEC2 = vector(2, FLOAT, 4)
IMAGE = image(D2, 0, SAMPLED, FLOAT, 0)
ONE = f32(0x3F800000)
P3 = sheet(vector(3, FLOAT, 4), array(0, 4, 16))

# ---- 1: under 6 bytes or over 16,384

FILLED = [available(*range(4092)), scalar(FLOAT, 4, "m"), scalar(FLOAT, 4, "mm")]
row("no byte at all", b"", 1)
row("only a version", b"\1", 1)
row("5 bytes: the flags are missing", b"\1\0\0\0\0", 1)
row("5 bytes and a wrong version: 1 is tested before 2", b"\2\0\0\0\0", 1)
row("16,385 bytes", sheet(FILLED[0], FILLED[2]), 1)
row("16,384 bytes", sheet(FILLED[0], FILLED[1]), FITS)
row("6 bytes: a header alone", sheet(), FITS)

# ---- 2: version byte not 1

row("version 0", sheet(version=0), 2)
row("version 2", sheet(version=2), 2)
row("version 255", sheet(version=255), 2)
row("version 0 and a flag bit above bit 1: 2 before 3", sheet(version=0, flags=4), 2)
row("version 17 before an unsound record", sheet(b"\0\0", version=17), 2)

# ---- 3: a flag bit above bit 1

row("flag bit 2", sheet(flags=4), 3)
row("flag bit 7", sheet(flags=128), 3)
row("all flag bits", sheet(flags=255), 3)
row("flag bits 0, 1 and 2", sheet(F, flags=7), 3)
row("flag bit 3 before an unsound record: 3 before 4", sheet(b"\0", flags=8), 3)
row("both flags", sheet(F, flags=3), FITS)

# ---- 4: no room for a length, length 0, length past the end

row("one byte left for a length", sheet(b"\0"), 4)
row("one byte left after a record", sheet(F, b"\0"), 4)
row("length 0", sheet(b"\0\0"), 4)
row("length 0 after a record", sheet(F, b"\0\0"), 4)
row("length one past the end", sheet(b"\0\5\x10\xff\2\4"), 4)
row("length 65,535", sheet(b"\xff\xff\x10\xff\2\4"), 4)
row("length past the end of a record of unknown tag: 4 before 5", sheet(b"\0\2\x05"), 4)
row("a length and nothing after it", sheet(b"\0\1"), 4)
row("a record up to the last byte", sheet(b"\0\4\x10\xff\2\4"), FITS)

# ---- 5: unknown tag

for tag in (0, 3, 15, 29):
    row(f"tag {tag}", sheet(record(tag)), 5)
row("tag 48: a function record by paper 2, here without a body", sheet(record(48)), 8)
for tag in (47, 49):
    row(f"tag {tag}, with a function record's body", sheet(record(tag, u16(VOID) + b"\0")), 5)
for tag in (63, 69, 95, 97, 255):
    row(f"tag {tag}", sheet(record(tag)), 5)
row("tag 0 after a global: 5 before 6", sheet(F, global_(0, UNIFORM), record(0)), 5)

# ---- 6: a rank lower than the record before, a second Available

row("Available after a remap", sheet(remap(0, 0, 1), available()), 6)
row("a remap after a type", sheet(F, remap(0, 0, 1)), 6)
row("Available after a type", sheet(F, available()), 6)
row("a type after a constant", sheet(ONE, F), 6)
row("a constant after a global", sheet(F, global_(0, UNIFORM), ONE), 6)
row("a second Available, empty like the first", sheet(available(), available()), 6)
row("a second Available of three bytes: 6 before 8", sheet(available(), record(1, b"\0\0\0")), 6)
row("a type after a global", sheet(F, ONE, global_(0, UNIFORM), F), 6)
NOTHING = function(VOID)
row("a type after a function record", sheet(F, NOTHING, U), 6)
row("a remap after a function record", sheet(NOTHING, remap(0, 0, 1)), 6)
row("Available after a function record", sheet(NOTHING, available()), 6)
row("a function record after a constant", sheet(F, ONE, NOTHING), 6)
row("a function record after a global", sheet(F, global_(0, UNIFORM), NOTHING), 6)
row("a function record without a body after a constant: 6 before 8", sheet(ONE, record(48)), 6)
row("a function record after each rank below it, before each above it",
    sheet(available(), remap(0, 0, 1), F, NOTHING, ONE, global_(0, UNIFORM)), FITS)
row("a function record alone", sheet(NOTHING), FITS)
row("a function record before a global, and no constant", sheet(F, NOTHING, global_(0, UNIFORM)), FITS)
row("one record of each rank, rising",
    sheet(available(), remap(0, 0, 1), F, ONE, global_(0, UNIFORM)), FITS)
row("equal ranks: a higher tag before a lower one", sheet(atomic(UINT, 4), F), FITS)
row("Available with a number twice that nobody knows",
    sheet(available(0xFFFFFFFF, 0xFFFFFFFF)), FITS)

# ---- 7: one too many of its kind

REMAPS = [remap(0, n, 1) for n in range(65)]
TYPES = [scalar(FLOAT, 4, f"{n:02x}") for n in range(257)]
row("65 remaps", sheet(*REMAPS), 7)
row("64 remaps", sheet(*REMAPS[:64]), FITS)
row("257 types", sheet(*TYPES), 7)
row("256 types", sheet(*TYPES[:256]), FITS)
row("257 constants", sheet(*[boolean(1)] * 257), 7)
row("256 constants", sheet(*[boolean(1)] * 256), FITS)
row("65 globals", sheet(F, *[global_(0, UNIFORM)] * 65), 7)
row("64 globals", sheet(F, *[global_(0, PRIVATE)] * 64), FITS)
row("65 function records", sheet(*[NOTHING] * 65), 7)
row("64 function records", sheet(*[NOTHING] * 64), FITS)
row("64 function records, no two alike",
    sheet(F, U, *[function(n // 8 % 2, *[0] * (n % 8), *[1] * (n // 16)) for n in range(64)]), FITS)
row("a 65th function record without a body: 7 before 8", sheet(*[NOTHING] * 64, record(48)), 7)
row("a 65th function record of 17 parameters: 7 before 10",
    sheet(F, *[NOTHING] * 64, function(VOID, *[0] * 17)), 7)
row("a 65th function record of a missing type: 7 before 11", sheet(*[NOTHING] * 64, function(0)), 7)
row("a function record after 256 types: it is none of them", sheet(*TYPES[:256], NOTHING), FITS)
row("a 65th remap without a body: 7 before 8", sheet(*REMAPS[:64], record(2)), 7)
row("a 257th constant of unknown form: 7 before the form's 10",
    sheet(*[boolean(1)] * 256, record(64, b"\7")), 7)

# ---- 8: the body ends before its fields or after them

row("a scalar without a body", sheet(record(16)), 8)
row("a scalar without its width", sheet(record(16, b"\xff\2")), 8)
row("a scalar with a byte too many", sheet(record(16, b"\xff\2\4\0")), 8)
row("a name longer than its body", sheet(record(16, b"\5abc")), 8)
row("a name of 254 bytes that is not there", sheet(record(26, b"\xfe")), 8)
row("an acceleration structure with a byte after its name", sheet(record(26, b"\xff\0")), 8)
row("Available of three bytes", sheet(record(1, b"\0\0\0")), 8)
row("Available of five bytes", sheet(record(1, b"\0\0\0\1\0")), 8)
row("a remap of eleven bytes", sheet(record(2, b"\0" * 11)), 8)
row("a struct of two members with one there",
    sheet(F, struct(16, member(0, 0), count=2)), 8)
row("a struct of no members with one there",
    sheet(F, struct(16, member(0, 0), count=0)), 8)
row("a struct of 65 members with one there: no count makes 10 of this",
    sheet(F, struct(16, member(0, 0), count=65)), 8)
row("a member's name cut off", sheet(F, struct(4, u16(0) + u32(0) + b"\2a")), 8)
row("a function record without a count", sheet(F, record(48, u16(0))), 8)
row("a function record of two parameters with one there", sheet(F, function(0, 0, count=2)), 8)
row("a function record of no parameters with one there", sheet(F, function(0, 0, count=0)), 8)
row("a function record with half a parameter too many", sheet(F, record(48, u16(0) + b"\1\0\0\0")), 8)
row("a function record of 17 parameters with 16 there: no count makes 10 of this",
    sheet(F, function(VOID, *[0] * 16, count=17)), 8)
row("a function record of 255 parameters with none there", sheet(F, function(VOID, count=255)), 8)
row("a function record of missing types, a parameter too few: 8 before 11", sheet(function(0, 1, count=2)), 8)
row("a literal without a form", sheet(record(64)), 8)
row("an F64 literal of four bytes", sheet(record(64, b"\0\0\0\0\0")), 8)
row("a Bool literal of two bytes", sheet(record(64, b"\4\1\0")), 8)
row("a Compose with fewer parts than its count", sheet(VEC2, ONE, compose(0, 0, count=2)), 8)
row("a Compose with more parts than its count",
    sheet(VEC2, ONE, compose(0, 0, 0, 0, count=2)), 8)
row("a global that ends before its init", sheet(F, record(96, b"\xff" + b"\0" * 13)), 8)
row("a zero byte in a name, and a byte too many: 8 before 9", sheet(record(16, b"\1\0\2\4\0")), 8)
row("kind 9 and a byte too few: 8 before 10", sheet(record(17, b"\xff\2\x09")), 8)

# ---- 9: a name is not UTF-8 or holds a zero byte


def named(raw):
    return sheet(scalar(FLOAT, 4, raw))


row("a zero byte alone", named(b"\0"), 9)
row("a zero byte at the end", named(b"abc\0"), 9)
row("a continuation byte alone", named(b"\x80"), 9)
row("an overlong slash of two bytes", named(b"\xc0\xaf"), 9)
row("an overlong form of three bytes", named(b"\xe0\x9f\xbf"), 9)
row("an overlong form of four bytes", named(b"\xf0\x8f\xbf\xbf"), 9)
row("a surrogate", named(b"\xed\xa0\x80"), 9)
row("above U+10FFFF", named(b"\xf4\x90\x80\x80"), 9)
row("a byte that begins nothing", named(b"\xf5\x80\x80\x80"), 9)
row("two of three bytes", named(b"\xe2\x82"), 9)
row("a lead byte followed by a letter", named(b"\xc3a"), 9)
row("a member's name", sheet(F, struct(4, member(0, 0, b"\xff"))), 9)
row("the second member's name, under flag bit 0",
    sheet(F, struct(8, member(0, 0, "a"), member(0, 4, b"b\0")), flags=DEBUG), 9)
row("a global's name", sheet(F, global_(0, UNIFORM, name=b"\xc1\x81")), 9)
row("a zero byte in a name, and kind 9: 9 before 10", sheet(scalar(9, 4, b"\0")), 9)
row("a bad name of a global of a missing type: 9 before 11",
    sheet(global_(0, UNIFORM, name=b"\0")), 9)
row("the first and last of each length of UTF-8",
    sheet(scalar(FLOAT, 4, "\x01\x7f\x80\u07ff\u0800\ud7ff\ue000\uffff\U00010000\U0010ffff"),
          flags=DEBUG), FITS)
row("a name of 254 bytes", sheet(scalar(FLOAT, 4, "é" * 127), flags=DEBUG), FITS)

# ---- 10: a field outside its values

row("kind 4", sheet(scalar(4, 4)), 10)
row("an integer of width 3", sheet(scalar(UINT, 3)), 10)
row("a Float of width 2: let in by paper 1", sheet(scalar(FLOAT, 2)), FITS)
row("a Float of width 1", sheet(scalar(FLOAT, 1)), 10)
row("a Float of width 3", sheet(scalar(FLOAT, 3)), 10)
row("a Bool of width 2", sheet(scalar(BOOL, 2)), 10)
row("a vector of Bools of width 2", sheet(vector(2, BOOL, 2)), 10)
row("an atomic of Float 2", sheet(atomic(FLOAT, 2)), FITS)
row("a vector of Float 2", sheet(vector(3, FLOAT, 2)), FITS)
row("a value pointer to Float 2", sheet(value_pointer(0, FLOAT, 2, STORAGE, LOAD)), FITS)
row("a value pointer to a vector of Float 2", sheet(value_pointer(4, FLOAT, 2, PRIVATE)), FITS)
row("a Bool of width 4", sheet(scalar(BOOL, 4)), 10)
row("a vector of one", sheet(vector(1, FLOAT, 4)), 10)
row("a vector of five", sheet(vector(5, FLOAT, 4)), 10)
row("a vector of Float 1", sheet(vector(2, FLOAT, 1)), 10)
row("a matrix of one column", sheet(matrix(1, 2, 4)), 10)
row("a matrix of five rows", sheet(matrix(2, 5, 4)), 10)
row("a matrix of width 2: let in by paper 1", sheet(matrix(2, 2, 2)), FITS)
row("a matrix of width 1", sheet(matrix(2, 2, 1)), 10)
row("a matrix of width 3", sheet(matrix(2, 2, 3)), 10)
row("a matrix of width 2 with five rows", sheet(matrix(2, 5, 2)), 10)
row("an atomic of width 0", sheet(atomic(SINT, 0)), 10)
row("a pointer into space 7", sheet(F, pointer(0, 7)), 10)
row("a Function pointer with access", sheet(F, pointer(0, FUNCTION, LOAD)), 10)
row("a Storage pointer with access 4", sheet(F, pointer(0, STORAGE, 4)), 10)
row("a value pointer of size 1", sheet(value_pointer(1, FLOAT, 4, FUNCTION)), 10)
row("a value pointer of size 5", sheet(value_pointer(5, FLOAT, 4, FUNCTION)), 10)
row("65 members, all there", sheet(F, struct(260, *[member(0, 4 * n) for n in range(65)])), 10)
row("64 members", sheet(F, struct(256, *[member(0, 4 * n) for n in range(64)])), FITS)
row("17 parameters, all there", sheet(F, function(VOID, *[0] * 17)), 10)
row("255 parameters, all there", sheet(F, function(0, *[0] * 255)), 10)
row("17 parameters, the last of a missing type: 10 before 11", sheet(F, function(VOID, *[0] * 16, 1)), 10)
row("17 parameters and a missing return type: 10 before 11", sheet(F, function(1, *[0] * 17)), 10)
row("16 parameters", sheet(F, function(VOID, *[0] * 16)), FITS)
row("16 parameters and a return type", sheet(F, U, function(1, *[0] * 15, 1)), FITS)
row("image dimension 4", sheet(image(4, 0, SAMPLED, FLOAT, 0)), 10)
row("an image arrayed 2", sheet(image(D2, 2, SAMPLED, FLOAT, 0)), 10)
row("image class 3", sheet(image(D2, 0, 3, 0, 0)), 10)
row("an image that samples Bool", sheet(image(D2, 0, SAMPLED, BOOL, 0)), 10)
row("a sampled image, multi 2", sheet(image(D2, 0, SAMPLED, FLOAT, 2)), 10)
row("a depth image with a kind", sheet(image(D2, 0, DEPTH, FLOAT, 0)), 10)
row("a depth image, multi 2", sheet(image(D2, 0, DEPTH, 0, 2)), 10)
row("storage format 40", sheet(image(D2, 0, STORED, 40, 3)), 10)
row("a storage image with access 4", sheet(image(D2, 0, STORED, 0, 4)), 10)
row("storage format 39, access 0", sheet(image(D2, 0, STORED, 39, 0)), FITS)
row("a sampler, comparison 2", sheet(sampler(2)), 10)
row("literal form 5 without a value: 10 before 8", sheet(record(64, b"\5")), 10)
row("literal form 255 with four bytes", sheet(record(64, b"\xff\0\0\0\0")), 10)
row("a literal of two bytes: no form has them", sheet(record(64, b"\5\x3c\0")), 10)
row("Bool 2", sheet(boolean(2)), 10)
row("a Splat of size 1", sheet(ONE, splat(1, 0)), 10)
row("a Splat of size 5 of a missing constant: 10 before 11", sheet(splat(5, 0)), 10)
row("a remap to size 0", sheet(remap(0, 0, 0)), 10)
row("a global in space 7", sheet(F, global_(0, 7)), 10)
row("a Uniform global with access", sheet(F, global_(0, UNIFORM, LOAD)), 10)
row("a Storage global with access 4", sheet(F, global_(0, STORAGE, 4)), 10)
row("bound 2", sheet(F, global_(0, UNIFORM, bound=2)), 10)
row("unbound, in group 1", sheet(F, global_(0, UNIFORM, at=(1, 0), bound=0)), 10)
row("unbound, at binding 1", sheet(F, global_(0, UNIFORM, at=(0, 1), bound=0)), 10)
row("a global of a missing type in space 7: 10 before 11", sheet(global_(0, 7)), 10)
row("a Storage global without any access", sheet(F, global_(0, STORAGE, 0)), FITS)

# ---- 11: a reference to an entry not already read

row("a pointer to itself", sheet(pointer(0, FUNCTION)), 11)
row("an array of the next type", sheet(array(1, 4, 4), F), 11)
row("an array of type 65,535", sheet(F, array(65535, 4, 4)), 11)
row("a struct that holds itself", sheet(F, struct(4, member(0, 0), member(1, 4))), 11)
row("a binding array of nothing", sheet(binding_array(0, 0)), 11)
row("an alias of itself", sheet(alias(0)), 11)
row("a zero of a missing type", sheet(F, zero(1)), 11)
row("a Compose of a missing type", sheet(ONE, compose(0, 0, 0)), 11)
row("a Compose with a missing part", sheet(VEC2, ONE, compose(0, 0, 1)), 11)
row("a Splat of a missing constant", sheet(splat(2, 0)), 11)
row("a global of a missing type", sheet(F, global_(1, UNIFORM)), 11)
row("a global with a missing init", sheet(F, ONE, global_(0, PRIVATE, init=1)), 11)
row("init 65,534", sheet(F, ONE, global_(0, PRIVATE, init=65534)), 11)
row("a Function global of a missing type: 11 before 13", sheet(global_(0, FUNCTION)), 11)
row("a Uniform global with a missing init: 11 before 13", sheet(F, global_(0, UNIFORM, init=0)), 11)
row("a function record that returns a missing type", sheet(F, function(1)), 11)
row("a function record that returns type 65,534", sheet(F, function(65534)), 11)
row("a function record with a parameter of a missing type", sheet(F, function(VOID, 1)), 11)
row("the last of 16 parameters missing", sheet(F, function(0, *[0] * 15, 1)), 11)
row("65,535 as a parameter: void is returned only", sheet(F, function(VOID, VOID)), 11)
row("65,535 as the second parameter", sheet(F, function(0, 0, VOID)), 11)
row("a parameter behind the types: function records have no index", sheet(F, NOTHING, function(VOID, 1)), 11)
row("a zero of what would be a function record's index", sheet(F, NOTHING, zero(1)), 11)
row("a global of what would be a function record's index", sheet(F, NOTHING, global_(1, UNIFORM)), 11)
row("a function record of nothing that was read", sheet(function(0, 0)), 11)
row("a function record of the last type", sheet(F, U, function(1, 1, 0)), FITS)
row("an array of samplers: any entry read before may be referred to",
    sheet(sampler(), array(0, 2, 4)), FITS)
row("the last constant as init", sheet(F, ONE, global_(0, PRIVATE, init=0)), FITS)

# ---- 12: a repeated type or remap

PAIR = struct(8, member(0, 0, "a"), member(0, 4, "b"), name="Pair")
row("a scalar twice", sheet(F, F), 12)
row("a named scalar twice, others between", sheet(scalar(UINT, 4, "n"), F, scalar(UINT, 4, "n")), 12)
row("a struct twice", sheet(F, PAIR, PAIR), 12)
row("a sampler twice", sheet(sampler(), sampler()), 12)
row("a ray query twice", sheet(ray_query(), ray_query()), 12)
row("an array twice", sheet(F, array(0, 4, 4), array(0, 4, 4)), 12)
row("a function record twice: never 12, and one id", sheet(F, function(0, 0), function(0, 0)), FITS)
row("a function record that returns void twice: void once", sheet(NOTHING, NOTHING), FITS)
row("function records of a scalar and an atomic of one shape: one id",
    sheet(F, atomic(FLOAT, 4), function(0, 1), function(1, 0), function(1, 1)), FITS)
row("function records of twin structs: two ids",
    sheet(F, struct(4, member(0, 0)), struct(8, member(0, 0)), function(1, 1), function(1, 2), function(2, 1)), FITS)
row("function records that differ in the return type", sheet(F, U, function(0, 0), function(1, 0), function(VOID, 0)), FITS)
row("function records that differ in the last parameter", sheet(F, U, function(0, 0, 0), function(0, 0, 1)), FITS)
row("function records that differ in the count", sheet(F, function(0), function(0, 0), function(0, 0, 0)), FITS)
row("function records that differ in the order of parameters", sheet(F, U, function(VOID, 0, 1), function(VOID, 1, 0)), FITS)
row("void where it is first returned, between two function types",
    sheet(F, function(0), function(VOID, 0), function(0, 0), function(VOID)), FITS)
row("a remap twice", sheet(remap(1, 2, 3), remap(1, 2, 3)), 12)
row("a remap to another size", sheet(remap(1, 2, 3), remap(9, 9, 9), remap(1, 2, 4)), 12)
row("an image twice whose capability is available",
    sheet(available(43), image(D1, 0, SAMPLED, FLOAT, 0), image(D1, 0, SAMPLED, FLOAT, 0)), 12)
row("no name and an empty name", sheet(F, scalar(FLOAT, 4, "")), FITS)
row("a scalar and an atomic of one name: one id is named twice",
    sheet(scalar(FLOAT, 4, "a"), atomic(FLOAT, 4, "a"), flags=DEBUG), FITS)
row("structs that differ in span", sheet(F, struct(4, member(0, 0)), struct(8, member(0, 0))), FITS)
row("structs that differ in a member's name",
    sheet(F, struct(4, member(0, 0, "a")), struct(4, member(0, 0, "b"))), FITS)
row("arrays that differ in stride", sheet(F, array(0, 4, 4), array(0, 4, 16)), FITS)
row("remaps that differ in group", sheet(remap(0, 2, 3), remap(1, 2, 3)), FITS)

# ---- 13: unfit

row("a zero of a sampler", sheet(sampler(), zero(0)), 13)
row("a zero of a dynamic array", sheet(F, array(0, 0, 4), zero(1)), 13)
row("a zero of an array of dynamic arrays", sheet(F, array(0, 0, 4), array(1, 2, 4), zero(2)), 13)
row("a zero of a struct with an image", sheet(F, IMAGE, struct(8, member(0, 0), member(1, 4)), zero(2)), 13)
row("a zero of a pointer", sheet(F, pointer(0, PRIVATE), zero(1)), 13)
row("a zero of a sized binding array of floats", sheet(F, binding_array(0, 4), zero(1)), 13)
row("a zero of an empty struct", sheet(struct(0), zero(0)), FITS)
row("a Private global of a dynamic array", sheet(F, array(0, 0, 4), global_(1, PRIVATE)), 13)
row("a WorkGroup image without flag bit 1", sheet(IMAGE, global_(0, WORKGROUP)), 13)
row("a WorkGroup atomic", sheet(atomic(UINT, 4), global_(0, WORKGROUP)), FITS)
row("a Compose of a scalar", sheet(F, ONE, compose(0, 0)), 13)
row("a Compose of an atomic", sheet(atomic(UINT, 4), u32_literal(1), compose(0, 0)), 13)
row("a Compose of a dynamic array", sheet(F, array(0, 0, 4), ONE, compose(1, 0)), 13)
row("a Compose of a dynamic array without parts", sheet(F, array(0, 0, 4), compose(1)), 13)
row("a Compose of a sized binding array", sheet(F, binding_array(0, 1), ONE, compose(1, 0)), 13)
row("a vec2 of one part", sheet(VEC2, ONE, compose(0, 0)), 13)
row("a vec2 of three parts", sheet(VEC2, ONE, compose(0, 0, 0, 0)), 13)
row("an array of 4,294,967,295 with one part", sheet(F, array(0, 0xFFFFFFFF, 4), ONE, compose(1, 0)), 13)
row("a U32 in a vec2 of floats", sheet(VEC2, ONE, u32_literal(1), compose(0, 0, 1)), 13)
row("a scalar in a matrix", sheet(matrix(2, 2, 4), ONE, compose(0, 0, 0)), 13)
row("an F32 in a vec2 of Float 2", sheet(vector(2, FLOAT, 2), ONE, compose(0, 0, 0)), 13)
row("a twin struct in another's place",
    sheet(F, struct(4, member(0, 0)), struct(8, member(0, 0)), array(1, 1, 4), zero(2), compose(3, 0)), 13)
row("a struct with a part too few", sheet(F, PAIR, ONE, compose(1, 0)), 13)
row("an empty struct composed of no parts", sheet(struct(0), compose(0)), FITS)
row("a matrix composed of zeros of its column's shape",
    sheet(matrix(2, 3, 4), vector(3, FLOAT, 4, "column"), zero(1), compose(0, 0, 0)), FITS)
row("an atomic's zero in a vec2", sheet(VEC2, atomic(FLOAT, 4), zero(1), compose(0, 0, 0)), FITS)
row("a Splat of a Compose", sheet(VEC2, ONE, compose(0, 0, 0), splat(2, 1)), 13)
row("a Splat of a vector's zero", sheet(VEC2, zero(0), splat(2, 0)), 13)
row("a Splat of an atomic's zero", sheet(atomic(FLOAT, 4), zero(0), splat(2, 0)), 13)
row("a Splat of a Splat", sheet(ONE, splat(2, 0), splat(2, 1)), 13)
row("a Splat of an alias of a Compose", sheet(VEC2, ONE, compose(0, 0, 0), alias(1), splat(2, 2)), 13)
row("a Splat of a zero of Float 2", sheet(scalar(FLOAT, 2), zero(0), splat(3, 0)), FITS)
row("a Splat of an alias of an alias of a scalar's zero",
    sheet(F, zero(0), alias(0), alias(1), splat(3, 2)), FITS)
row("a function record that returns a sampler", sheet(sampler(), function(0)), FITS)
row("parameters that are a dynamic array, a pointer and an image: entries' own ids",
    sheet(F, array(0, 0, 4), pointer(0, FUNCTION), IMAGE, function(VOID, 1, 2, 3)), FITS)
row("a Function global", sheet(F, global_(0, FUNCTION)), 13)
row("a global of pointer type", sheet(F, pointer(0, UNIFORM), global_(1, UNIFORM)), 13)
row("a global of value pointer type", sheet(value_pointer(0, FLOAT, 4, STORAGE), global_(0, HANDLE)), 13)
row("a bound Private global", sheet(F, global_(0, PRIVATE, at=(0, 0))), 13)
row("a bound WorkGroup global", sheet(F, global_(0, WORKGROUP, at=(0, 0))), 13)
row("a bound PushConstant global", sheet(F, global_(0, PUSH_CONSTANT, at=(0, 0))), 13)
row("a Uniform global with an init", sheet(F, ONE, global_(0, UNIFORM, init=0)), 13)
row("a WorkGroup global with an init", sheet(F, ONE, global_(0, WORKGROUP, init=0)), 13)
row("an init of another type", sheet(F, u32_literal(0), global_(0, PRIVATE, init=0)), 13)
row("an atomic's zero as a float's init: one id", sheet(F, atomic(FLOAT, 4), zero(1), global_(0, PRIVATE, init=0)), FITS)
row("unbound Uniform, Storage and Handle globals",
    sheet(F, IMAGE, global_(0, UNIFORM), global_(0, STORAGE, 3), global_(1, HANDLE)), FITS)
row("a float in Handle space", sheet(F, global_(0, HANDLE)), FITS)

# ---- 14: a capability is missing

EXTENDED, SAMPLED_1D, IMAGE_1D, SAMPLED_CUBE, IMAGE_CUBE, RAY_QUERY = 49, 43, 44, 45, 34, 4472
row("a sampled D1 image", sheet(available(IMAGE_1D), image(D1, 0, SAMPLED, FLOAT, 0)), 14)
row("a depth D1 image", sheet(available(IMAGE_1D), image(D1, 1, DEPTH, 0, 0)), 14)
row("a storage D1 image", sheet(available(SAMPLED_1D), image(D1, 0, STORED, 17, 3)), 14)
row("an arrayed Cube that is sampled", sheet(available(IMAGE_CUBE), image(CUBE, 1, SAMPLED, UINT, 0)), 14)
row("an arrayed Cube that is stored", sheet(available(SAMPLED_CUBE), image(CUBE, 1, STORED, 17, 1)), 14)
row("format R8Unorm", sheet(available(), image(D2, 0, STORED, 0, 1)), 14)
row("format R8Unorm in D1, the format alone available", sheet(available(EXTENDED), image(D1, 0, STORED, 0, 1)), 14)
row("format R8Unorm in D1, the dimension alone available", sheet(available(IMAGE_1D), image(D1, 0, STORED, 0, 1)), 14)
row("an acceleration structure", sheet(available(), acceleration_structure()), 14)
row("a ray query", sheet(available(4471), ray_query()), 14)
row("a missing capability, and start past the limit: 14 before 15",
    sheet(available(), image(D1, 0, SAMPLED, FLOAT, 0), start=4194303), 14)
row("a missing capability before an unsound record",
    sheet(available(), ray_query(), b"\0"), 14)
row("format R8Unorm in D1, both available", sheet(available(EXTENDED, IMAGE_1D), image(D1, 0, STORED, 0, 1)), FITS)
row("formats that need nothing", sheet(available(), image(D2, 0, STORED, 17, 1), image(D2, 0, STORED, 21, 1)), FITS)
row("a Cube that is not arrayed", sheet(available(), image(CUBE, 0, SAMPLED, FLOAT, 0)), FITS)
row("scalar capabilities are not checked", sheet(available(), scalar(SINT, 8), scalar(FLOAT, 8)), FITS)
row("nor is Float16", sheet(available(), matrix(2, 3, 2)), FITS)
row("Float16 where it is first used, once",
    sheet(scalar(SINT, 1), vector(2, FLOAT, 2), scalar(FLOAT, 8), scalar(FLOAT, 2)), FITS)
row("format R16Float beside a Float 2: its sampled type has width 4",
    sheet(scalar(FLOAT, 2), image(D2, 0, STORED, 6, LOAD)), FITS)

# ---- 15: the bound would pass 4,194,303

row("one scalar from 4,194,302", sheet(F, start=4194302), 15)
row("one scalar from 4,194,301", sheet(F, start=4194301), FITS)
row("a vector from 4,194,301: two ids", sheet(VEC2, start=4194301), 15)
row("a vector from 4,194,300", sheet(VEC2, start=4194300), FITS)
row("void and a function type from 4,194,301: two ids", sheet(NOTHING, NOTHING, start=4194301), 15)
row("void and a function type from 4,194,300", sheet(NOTHING, NOTHING, start=4194300), FITS)
row("a function type from 4,294,967,294: an id would pass 32 bits", sheet(F, function(0, 0), start=0xFFFFFFFE), 15)
row("nothing from 4,194,303", sheet(start=4194303), 15)
row("nothing from 4,194,302", sheet(start=4194302), FITS)
row("a scalar from 4,294,967,295", sheet(F, start=0xFFFFFFFF), 15)
row("a vector from 4,294,967,294: an id would pass 32 bits", sheet(VEC2, start=0xFFFFFFFE), 15)
row("a Compose from 4,294,967,290, its part's type still told by id",
    sheet(VEC2, ONE, compose(0, 0, 0), start=0xFFFFFFFA), 15)
row("start past the limit and an unknown tag: records come first", sheet(record(0), start=0xFFFFFFFF), 5)
row("start past the limit and an unfit Compose: records come first",
    sheet(VEC2, u32_literal(1), compose(0, 0, 0), start=0xFFFFFFFA), 13)

# ---- 16: the buffer is shorter than the module

row("P3 in 27 words", P3, 16, "buffer=27")
row("P3 in 28 words", P3, FITS, "buffer=28")
row("a header in 4 words", sheet(), 16, "buffer=4")
row("a header in 5 words", sheet(), FITS, "buffer=5")
row("a header in no words", sheet(), 16, "buffer=0")
row("void and a function type in 9 words", sheet(NOTHING), 16, "buffer=9")
row("void and a function type in 10 words", sheet(NOTHING), FITS, "buffer=10")
BUFFERS = sheet(F, binding_array(0, 0), *[global_(1, STORAGE, LOAD | STORE)] * 2)
row("two Storage globals of one binding array, whose base has Block once, in 25 words", BUFFERS, 16, "buffer=25")
row("the same in 26 words, where a second Block would not fit", BUFFERS, FITS, "buffer=26")
row("one scalar in 7 words", sheet(F), 16, "buffer=7")
row("64 wrapped globals in 1,000 words", sheet(F, *[global_(0, UNIFORM)] * 64), 16, "buffer=1000")
row("a scalar past the limit in no words: 15 before 16", sheet(F, start=4194302), 15, "buffer=0")
row("an unknown tag in no words: Check before 16", sheet(record(0)), 5, "buffer=0")

# ---- 17: there is no such global; and Wrapped's answers

LOG = [F, array(0, 0, 4)]
row("global 0 of none", sheet(F), 17, "wrapped=0")
row("global 1 of one", sheet(F, global_(0, UNIFORM)), 17, "wrapped=1")
row("global 0 of no records", sheet(), 17, "wrapped=0")
row("global 2 of two", sheet(F, *[global_(0, UNIFORM)] * 2), 17, "wrapped=2")
row("global 65,535 of one", sheet(F, global_(0, UNIFORM)), 17, "wrapped=65535")
row("global 0 of none, from past the limit: 15 before 17", sheet(start=4194303), 15, "wrapped=0")
row("a missing global of a refused sheet: Check before 17", sheet(F, F), 12, "wrapped=9")
row("global 0 of a function record", sheet(NOTHING), 17, "wrapped=0")
row("a float in Uniform behind a function record", sheet(F, NOTHING, global_(0, UNIFORM)), "yes", "wrapped=0")
row("a float in Uniform", sheet(F, global_(0, UNIFORM)), "yes", "wrapped=0")
row("an empty struct in Uniform", sheet(struct(0), global_(0, UNIFORM)), "no", "wrapped=0")
row("a struct in Uniform", sheet(F, PAIR, global_(1, UNIFORM)), "yes", "wrapped=0")
row("a struct that ends in a dynamic array",
    sheet(*LOG, struct(4, member(0, 0), member(1, 4)), global_(2, STORAGE, 3)), "no", "wrapped=0")
row("a struct with a dynamic array that is not last",
    sheet(*LOG, struct(4, member(1, 0), member(0, 4)), global_(2, STORAGE, 3)), "yes", "wrapped=0")
row("a struct that ends in a dynamic binding array",
    sheet(F, binding_array(0, 0), struct(4, member(1, 0)), global_(2, STORAGE, 3)), "yes", "wrapped=0")
row("a dynamic array itself", sheet(*LOG, global_(1, STORAGE, 1)), "yes", "wrapped=0")
row("a binding array", sheet(F, binding_array(0, 4), global_(1, STORAGE, 1)), "no", "wrapped=0")
row("a float in PushConstant", sheet(F, global_(0, PUSH_CONSTANT)), "yes", "wrapped=0")
row("a float in Private, before one in Uniform", sheet(F, global_(0, PRIVATE), global_(0, UNIFORM)), "no", "wrapped=0")
row("a float in Uniform, after one in Private", sheet(F, global_(0, PRIVATE), global_(0, UNIFORM)), "yes", "wrapped=1")
row("an image in Handle", sheet(IMAGE, global_(0, HANDLE)), "no", "wrapped=0")


def main(driver):
    fitting = [data for _, data, expected, _ in ROWS if expected == FITS]
    answers = subprocess.run(
        [driver, "answer", "reference"], input="\n".join(d.hex() for d in fitting),
        capture_output=True, text=True, check=True,
    ).stdout.splitlines()
    words = dict(line.split(" | ") for line in answers)
    damaged = sum(isinstance(expected, int) for _, _, expected, _ in ROWS)
    print(f"# {damaged} damaged sheets and {len(ROWS) - damaged} that fit beside them.")
    print("# Made by tests/damaged/make.py: the numbers are read off documents 01 and 02, the")
    print("# words are the published Rust's, with the Float16 line of paper 1 for 16-bit floats, with")
    print("# void where paper 2 has it declared, and without a repeat of Block, by paper 5.")
    print("# Lines: SHEET [buffer=N | wrapped=K] | ANSWER; lent are 16,384 words where no buffer is")
    print("# named. The first sheet has no byte.")
    for reason, data, expected, question in ROWS:
        if expected == FITS:
            answer = words[data.hex()]
        else:
            answer = f"refused {expected}" if isinstance(expected, int) else expected
        print(f"# {reason}")
        print(" ".join(filter(None, [data.hex(), question, "|", answer])))


if __name__ == "__main__":
    main(sys.argv[1])
