#!/usr/bin/env python3
"""Write the samples: sheets as files, and beside each what the program prints.

    make.py FOLDER DRIVER

DRIVER is the program that `tests/reference/run --build` puts into
target/reference; it supplies the published Rust's words for the tunnel. All other
words are spelt out here by hand from document 01 and the SPIR-V Specification, and
tests/reference/run holds them against the Rust.
"""

import subprocess
import sys
from pathlib import Path

sys.dont_write_bytecode = True
sys.path.insert(0, str(Path(__file__).resolve().parent.parent / "tests" / "reference"))
from sheets import *  # noqa: E402,F403


def module(bound, *instructions):
    """Header and instructions; an instruction is (opcode, operand, ...)."""
    words = [0x07230203, 0x00010300, 28, bound, 0]
    for opcode, *operands in instructions:
        words += [(len(operands) + 1) << 16 | opcode, *operands]
    return [f"{w:08x}" for w in words]


# Opcodes and decorations by the specification's names.
NAME, MEMBER_NAME, CAPABILITY = 5, 6, 17
TYPE_VOID, TYPE_BOOL, TYPE_INT, TYPE_FLOAT, TYPE_VECTOR, TYPE_MATRIX = 19, 20, 21, 22, 23, 24
TYPE_IMAGE, TYPE_SAMPLER, TYPE_ARRAY, TYPE_RUNTIME_ARRAY, TYPE_STRUCT = 25, 26, 28, 29, 30
TYPE_POINTER, TYPE_FUNCTION, VARIABLE, DECORATE, MEMBER_DECORATE = 32, 33, 59, 71, 72
TRUE, FALSE, CONSTANT, COMPOSITE, NULL = 41, 42, 43, 44, 46
TYPE_RAY_QUERY, TYPE_ACCELERATION_STRUCTURE = 4472, 5341
BLOCK, COL_MAJOR, ARRAY_STRIDE, MATRIX_STRIDE = 2, 5, 6, 7
NON_WRITABLE, NON_READABLE, BINDING, DESCRIPTOR_SET, OFFSET = 24, 25, 33, 34, 35
# Storage classes.
UNIFORM_CONSTANT_CLASS, UNIFORM_CLASS, WORKGROUP_CLASS, PRIVATE_CLASS = 0, 2, 4, 6
FUNCTION_CLASS, PUSH_CONSTANT_CLASS, STORAGE_BUFFER_CLASS = 7, 9, 12

FLOAT_1 = (TYPE_FLOAT, 1, 32)
FLOAT_2 = (TYPE_FLOAT, 2, 32)
ONE = 0x3F800000


def named(name, *packed):
    """P6: one scalar with a name."""
    return sheet(scalar(FLOAT, 4, name), flags=DEBUG), module(2, (NAME, 1, *packed), FLOAT_1)


def strided(rows, width, stride):
    """P7: a struct whose one member is a matrix of two columns."""
    return (
        sheet(matrix(2, rows, width), struct(2 * stride, member(0, 0))),
        module(
            5,
            *[(CAPABILITY, 10)] * (width == 8),
            (MEMBER_DECORATE, 4, 0, OFFSET, 0),
            (MEMBER_DECORATE, 4, 0, COL_MAJOR),
            (MEMBER_DECORATE, 4, 0, MATRIX_STRIDE, stride),
            (TYPE_FLOAT, 3, 8 * width),
            (TYPE_VECTOR, 2, 3, rows),
            (TYPE_MATRIX, 1, 2, 2),
            (TYPE_STRUCT, 4, 1),
        ),
    )


SAMPLES = {
    # No records.
    "p01": (sheet(), module(1)),
    # A vec3: its id is taken before its scalar's.
    "p02": (sheet(vector(3, FLOAT, 4)), module(3, FLOAT_2, (TYPE_VECTOR, 1, 2, 3))),
    # A vec3 and an array of four, as document 01 prints it.
    "p03": (
        sheet(vector(3, FLOAT, 4), array(0, 4, 16)),
        "07230203 00010300 0000001c 00000006 00000000 00040047 00000003 00000006 00000010"
        " 00030016 00000002 00000020 00040017 00000001 00000002 00000003 00040015 00000005"
        " 00000020 00000000 0004002b 00000005 00000004 00000004 0004001c 00000003 00000001"
        " 00000004".split(),
    ),
    # A scalar and an atomic share one id.
    "p04": (sheet(scalar(FLOAT, 4), atomic(FLOAT, 4)), module(2, FLOAT_1)),
    # true and false.
    "p05": (
        sheet(boolean(1), boolean(0)),
        module(4, (TYPE_BOOL, 2), (TRUE, 2, 1), (FALSE, 2, 3)),
    ),
    # Packed names.
    "p06a": named("", 0),
    "p06b": named("abc", 0x00636261),
    "p06c": named("abcd", 0x64636261, 0),
    # Matrix strides.
    "p07a": strided(2, 4, 8),
    "p07b": strided(3, 4, 16),
    "p07c": strided(3, 8, 32),
    # +0 and -0 are two literals.
    "p08": (
        sheet(f32(0), f32(0x80000000)),
        module(4, FLOAT_2, (CONSTANT, 2, 1, 0), (CONSTANT, 2, 3, 0x80000000)),
    ),
    # The highest start for one scalar, and one more.
    "p09a": (sheet(scalar(FLOAT, 4), start=4194301), module(4194303, (TYPE_FLOAT, 4194302, 32))),
    "p09b": (sheet(scalar(FLOAT, 4), start=4194302), ["refused 15"]),
    # Compose and Splat of equal parts and type id are two composites.
    "p10": (
        sheet(vector(2, FLOAT, 4), f32(ONE), compose(0, 0, 0), splat(2, 0)),
        module(
            6,
            FLOAT_2,
            (TYPE_VECTOR, 1, 2, 2),
            (CONSTANT, 2, 3, ONE),
            (COMPOSITE, 1, 4, 3, 3),
            (COMPOSITE, 1, 5, 3, 3),
        ),
    ),
    # A Uniform empty struct is not wrapped, a float is.
    "p11a": (
        sheet(struct(0), global_(0, UNIFORM)),
        module(4, (TYPE_STRUCT, 1), (TYPE_POINTER, 3, UNIFORM_CLASS, 1), (VARIABLE, 3, 2, UNIFORM_CLASS)),
    ),
    "p11b": (
        sheet(scalar(FLOAT, 4), global_(0, UNIFORM)),
        module(
            5,
            (DECORATE, 3, BLOCK),
            (MEMBER_DECORATE, 3, 0, OFFSET, 0),
            FLOAT_1,
            (TYPE_STRUCT, 3, 1),
            (TYPE_POINTER, 4, UNIFORM_CLASS, 3),
            (VARIABLE, 4, 2, UNIFORM_CLASS),
        ),
    ),
    # With nothing available Int8 is still listed; a sampled D1 image is refused.
    "p12a": (
        sheet(available(), scalar(UINT, 1)),
        module(2, (CAPABILITY, 39), (TYPE_INT, 1, 8, 0)),
    ),
    "p12b": (sheet(available(), image(D1, 0, SAMPLED, FLOAT, 0)), ["refused 14"]),
}

# Every tag, its fields told apart by their values, from start 100 and under both
# flags; the words are worked out by hand like the others.
SAMPLES["every"] = (
    sheet(
        available(1, 34, 39, 43, 44, 49, 4472),
        remap(2, 3, 5),
        scalar(SINT, 2, "s"),  # 0: 101
        vector(4, UINT, 1),  # 1: 102, its scalar 103
        matrix(3, 2, 8),  # 2: 104, its column 105, its scalar 106
        atomic(SINT, 2),  # 3: 101 again
        pointer(1, WORKGROUP),  # 4: 107
        value_pointer(3, FLOAT, 4, STORAGE, STORE),  # 5: 108, its vector 109, its scalar 110
        array(2, 6, 40, "a"),  # 6: 111, its length 112, that one's type 113
        array(0, 0, 2),  # 7: 114
        struct(99, member(6, 8, "m"), member(1, 300), member(7, 304, ""), name="S"),  # 8: 115
        image(CUBE, 1, STORED, 6, LOAD),  # 9: 116, R16Float
        image(D1, 0, DEPTH, 0, 0),  # 10: 117
        sampler(1),  # 11: 118
        acceleration_structure(""),  # 12: 119
        ray_query(),  # 13: 120
        binding_array(11, 0),  # 14: 121
        binding_array(0, 6),  # 15: 122
        f64(0x3FF0000080000001),  # 0: 123
        f32(0x7F800001),  # 1: 124, a NaN
        u32_literal(6),  # 2: 112 again
        i32_literal(0xFFFFFFFE),  # 3: 125, its type 126
        boolean(1),  # 4: 127, its type 128
        alias(4),  # 5: 127 again
        zero(0),  # 6: 129
        splat(2, 5),  # 7: 130, its type 131
        splat(3, 1),  # 8: 132
        splat(2, 0),  # 9: 133
        compose(2, 9, 9, 9),  # 10: 134
        global_(8, STORAGE, LOAD, at=(7, 9), name="g"),  # 135, its pointer 136
        global_(6, UNIFORM),  # 137, its wrapper 138, its pointer 139
        global_(9, HANDLE, at=(0, 1)),  # 140, its pointer 141
        global_(14, HANDLE, at=(2, 3)),  # 142, its pointer 143, the array 144, the length 145
        global_(15, STORAGE, 0, at=(0, 0)),  # 146, its pointer 147
        global_(1, PRIVATE),  # 148, its pointer 149, its null 150
        global_(3, PRIVATE, init=6),  # 151, its pointer 152
        global_(1, WORKGROUP),  # 153, its pointer 107 again, its null 150 again
        global_(0, PUSH_CONSTANT),  # 154, its wrapper 155, its pointer 156
        start=100,
        flags=DEBUG | NATIVE_ZERO,
    ),
    module(
        157,
        *[(CAPABILITY, number) for number in (22, 39, 10, 49, 34, 43, 4472)],
        (NAME, 101, ord("s")),
        (NAME, 111, ord("a")),
        (MEMBER_NAME, 115, 0, ord("m")),
        (MEMBER_NAME, 115, 2, 0),
        (NAME, 115, ord("S")),
        (NAME, 119, 0),
        (NAME, 135, ord("g")),
        (DECORATE, 111, ARRAY_STRIDE, 40),
        (DECORATE, 114, ARRAY_STRIDE, 2),
        (MEMBER_DECORATE, 115, 0, OFFSET, 8),
        (MEMBER_DECORATE, 115, 0, COL_MAJOR),
        (MEMBER_DECORATE, 115, 0, MATRIX_STRIDE, 16),
        (MEMBER_DECORATE, 115, 1, OFFSET, 300),
        (MEMBER_DECORATE, 115, 2, OFFSET, 304),
        (DECORATE, 115, BLOCK),
        (DECORATE, 135, NON_WRITABLE),
        (DECORATE, 135, DESCRIPTOR_SET, 7),
        (DECORATE, 135, BINDING, 9),
        (DECORATE, 138, BLOCK),
        (MEMBER_DECORATE, 138, 0, OFFSET, 0),
        (MEMBER_DECORATE, 138, 0, COL_MAJOR),
        (MEMBER_DECORATE, 138, 0, MATRIX_STRIDE, 16),
        (DECORATE, 140, NON_WRITABLE),
        (DECORATE, 140, DESCRIPTOR_SET, 0),
        (DECORATE, 140, BINDING, 1),
        (DECORATE, 142, DESCRIPTOR_SET, 2),
        (DECORATE, 142, BINDING, 3),
        (DECORATE, 146, NON_READABLE),
        (DECORATE, 146, NON_WRITABLE),
        (DECORATE, 146, DESCRIPTOR_SET, 0),
        (DECORATE, 146, BINDING, 0),
        (DECORATE, 101, BLOCK),
        (DECORATE, 155, BLOCK),
        (MEMBER_DECORATE, 155, 0, OFFSET, 0),
        (TYPE_INT, 101, 16, 1),
        (TYPE_INT, 103, 8, 0),
        (TYPE_VECTOR, 102, 103, 4),
        (TYPE_FLOAT, 106, 64),
        (TYPE_VECTOR, 105, 106, 2),
        (TYPE_MATRIX, 104, 105, 3),
        (TYPE_POINTER, 107, WORKGROUP_CLASS, 102),
        (TYPE_FLOAT, 110, 32),
        (TYPE_VECTOR, 109, 110, 3),
        (TYPE_POINTER, 108, STORAGE_BUFFER_CLASS, 109),
        (TYPE_INT, 113, 32, 0),
        (CONSTANT, 113, 112, 6),
        (TYPE_ARRAY, 111, 104, 112),
        (TYPE_RUNTIME_ARRAY, 114, 101),
        (TYPE_STRUCT, 115, 111, 102, 114),
        # Sampled type, dimension, depth, arrayed, multisampled, sampled, format.
        (TYPE_IMAGE, 116, 110, 3, 0, 1, 0, 2, 9),
        (TYPE_IMAGE, 117, 110, 0, 1, 0, 0, 1, 0),
        (TYPE_SAMPLER, 118),
        (TYPE_ACCELERATION_STRUCTURE, 119),
        (TYPE_RAY_QUERY, 120),
        (TYPE_RUNTIME_ARRAY, 121, 118),
        (TYPE_ARRAY, 122, 101, 112),
        (CONSTANT, 106, 123, 0x80000001, 0x3FF00000),
        (CONSTANT, 110, 124, 0x7F800001),
        (TYPE_INT, 126, 32, 1),
        (CONSTANT, 126, 125, 0xFFFFFFFE),
        (TYPE_BOOL, 128),
        (TRUE, 128, 127),
        (NULL, 101, 129),
        (TYPE_VECTOR, 131, 128, 2),
        (COMPOSITE, 131, 130, 127, 127),
        (COMPOSITE, 109, 132, 124, 124, 124),
        (COMPOSITE, 105, 133, 123, 123),
        (COMPOSITE, 104, 134, 133, 133, 133),
        (TYPE_POINTER, 136, STORAGE_BUFFER_CLASS, 115),
        (VARIABLE, 136, 135, STORAGE_BUFFER_CLASS),
        (TYPE_STRUCT, 138, 111),
        (TYPE_POINTER, 139, UNIFORM_CLASS, 138),
        (VARIABLE, 139, 137, UNIFORM_CLASS),
        (TYPE_POINTER, 141, UNIFORM_CONSTANT_CLASS, 116),
        (VARIABLE, 141, 140, UNIFORM_CONSTANT_CLASS),
        (CONSTANT, 113, 145, 5),
        (TYPE_ARRAY, 144, 118, 145),
        (TYPE_POINTER, 143, UNIFORM_CONSTANT_CLASS, 144),
        (VARIABLE, 143, 142, UNIFORM_CONSTANT_CLASS),
        (TYPE_POINTER, 147, STORAGE_BUFFER_CLASS, 122),
        (VARIABLE, 147, 146, STORAGE_BUFFER_CLASS),
        (TYPE_POINTER, 149, PRIVATE_CLASS, 102),
        (NULL, 102, 150),
        (VARIABLE, 149, 148, PRIVATE_CLASS, 150),
        (TYPE_POINTER, 152, PRIVATE_CLASS, 101),
        (VARIABLE, 152, 151, PRIVATE_CLASS, 129),
        (VARIABLE, 107, 153, WORKGROUP_CLASS, 150),
        (TYPE_STRUCT, 155, 101),
        (TYPE_POINTER, 156, PUSH_CONSTANT_CLASS, 155),
        (VARIABLE, 156, 154, PUSH_CONSTANT_CLASS),
    ),
)

# Paper 1: half floats, with which a card filters label pictures; the matrix's columns
# are 8 bytes apart.
SAMPLES["half"] = (
    sheet(
        scalar(FLOAT, 2, "h"),  # 0: 1
        vector(4, FLOAT, 2, "t"),  # 1: 2, its scalar 1 again
        matrix(3, 3, 2, "f"),  # 2: 3, its column 4
        struct(32, member(2, 0, "f"), member(1, 24, "b"), name="F"),  # 3: 5
        zero(0),  # 0: 6
        splat(4, 0),  # 1: 7, its type 2 again
        global_(3, UNIFORM, at=(0, 4), name="g"),  # 8, its wrapper 9, its pointer 10
        flags=DEBUG,
    ),
    module(
        11,
        (CAPABILITY, 9),
        (NAME, 1, ord("h")),
        (NAME, 2, ord("t")),
        (NAME, 3, ord("f")),
        (MEMBER_NAME, 5, 0, ord("f")),
        (MEMBER_NAME, 5, 1, ord("b")),
        (NAME, 5, ord("F")),
        (NAME, 8, ord("g")),
        (MEMBER_DECORATE, 5, 0, OFFSET, 0),
        (MEMBER_DECORATE, 5, 0, COL_MAJOR),
        (MEMBER_DECORATE, 5, 0, MATRIX_STRIDE, 8),
        (MEMBER_DECORATE, 5, 1, OFFSET, 24),
        (DECORATE, 8, DESCRIPTOR_SET, 0),
        (DECORATE, 8, BINDING, 4),
        (DECORATE, 9, BLOCK),
        (MEMBER_DECORATE, 9, 0, OFFSET, 0),
        (TYPE_FLOAT, 1, 16),
        (TYPE_VECTOR, 2, 1, 4),
        (TYPE_VECTOR, 4, 1, 3),
        (TYPE_MATRIX, 3, 4, 3),
        (TYPE_STRUCT, 5, 3, 2),
        (NULL, 1, 6),
        (COMPOSITE, 2, 7, 6, 6, 6, 6),
        (TYPE_STRUCT, 9, 5),
        (TYPE_POINTER, 10, UNIFORM_CLASS, 9),
        (VARIABLE, 10, 8, UNIFORM_CLASS),
    ),
)

# Paper 2: the types of small library routines that a card calls. Void is declared by the
# first that returns it; what has equal ids is one function type, by whatever entries.
SAMPLES["routines"] = (
    sheet(
        scalar(FLOAT, 4, "w"),  # 0: 1
        atomic(FLOAT, 4),  # 1: 1 again
        vector(2, FLOAT, 4, "p"),  # 2: 2
        struct(16, member(2, 0, "p"), member(0, 8, "w"), name="L"),  # 3: 3
        pointer(3, FUNCTION),  # 4: 4
        sampler(),  # 5: 5
        function(0),  # 6
        function(VOID, 4),  # void 7, then 8
        function(0, 2, 0),  # 9
        function(1, 2, 1),  # 9 again: the atomic has the scalar's id
        function(VOID, 3, 5),  # 10, void 7 again
        function(VOID, 4),  # 8 again
        f32(ONE),  # 0: 11
        splat(2, 0),  # 1: 12, its type 2 again
        zero(3),  # 2: 13
        global_(3, UNIFORM, at=(0, 1), name="l"),  # 14, its wrapper 15, its pointer 16
        flags=DEBUG,
    ),
    module(
        17,
        (NAME, 1, ord("w")),
        (NAME, 2, ord("p")),
        (MEMBER_NAME, 3, 0, ord("p")),
        (MEMBER_NAME, 3, 1, ord("w")),
        (NAME, 3, ord("L")),
        (NAME, 14, ord("l")),
        (MEMBER_DECORATE, 3, 0, OFFSET, 0),
        (MEMBER_DECORATE, 3, 1, OFFSET, 8),
        (DECORATE, 14, DESCRIPTOR_SET, 0),
        (DECORATE, 14, BINDING, 1),
        (DECORATE, 15, BLOCK),
        (MEMBER_DECORATE, 15, 0, OFFSET, 0),
        FLOAT_1,
        (TYPE_VECTOR, 2, 1, 2),
        (TYPE_STRUCT, 3, 2, 1),
        (TYPE_POINTER, 4, FUNCTION_CLASS, 3),
        (TYPE_SAMPLER, 5),
        (TYPE_FUNCTION, 6, 1),
        (TYPE_VOID, 7),
        (TYPE_FUNCTION, 8, 7, 4),
        (TYPE_FUNCTION, 9, 1, 2, 1),
        (TYPE_FUNCTION, 10, 7, 3, 5),
        (CONSTANT, 1, 11, ONE),
        (COMPOSITE, 2, 12, 11, 11),
        (NULL, 3, 13),
        (TYPE_STRUCT, 15, 3),
        (TYPE_POINTER, 16, UNIFORM_CLASS, 15),
        (VARIABLE, 16, 14, UNIFORM_CLASS),
    ),
)

# Paper 4: the table of strides, a struct with a matrix for each of its nine numbers; two
# rows of the widths 2, 4 and 8, then three, then four. A float is declared with the first
# matrix of its width.
SAMPLES["strides"] = (
    sheet(
        *(matrix(2, rows, width) for rows in (2, 3, 4) for width in (2, 4, 8)),
        struct(576, *(member(n, 64 * n) for n in range(9))),
    ),
    module(
        23,
        (CAPABILITY, 9),
        (CAPABILITY, 10),
        *(
            words
            for n, stride in enumerate((4, 8, 16, 8, 16, 32, 8, 16, 32))
            for words in (
                (MEMBER_DECORATE, 22, n, OFFSET, 64 * n),
                (MEMBER_DECORATE, 22, n, COL_MAJOR),
                (MEMBER_DECORATE, 22, n, MATRIX_STRIDE, stride),
            )
        ),
        *((TYPE_FLOAT, 3, 16), (TYPE_VECTOR, 2, 3, 2), (TYPE_MATRIX, 1, 2, 2)),
        *((TYPE_FLOAT, 6, 32), (TYPE_VECTOR, 5, 6, 2), (TYPE_MATRIX, 4, 5, 2)),
        *((TYPE_FLOAT, 9, 64), (TYPE_VECTOR, 8, 9, 2), (TYPE_MATRIX, 7, 8, 2)),
        *((TYPE_VECTOR, 11, 3, 3), (TYPE_MATRIX, 10, 11, 2)),
        *((TYPE_VECTOR, 13, 6, 3), (TYPE_MATRIX, 12, 13, 2)),
        *((TYPE_VECTOR, 15, 9, 3), (TYPE_MATRIX, 14, 15, 2)),
        *((TYPE_VECTOR, 17, 3, 4), (TYPE_MATRIX, 16, 17, 2)),
        *((TYPE_VECTOR, 19, 6, 4), (TYPE_MATRIX, 18, 19, 2)),
        *((TYPE_VECTOR, 21, 9, 4), (TYPE_MATRIX, 20, 21, 2)),
        (TYPE_STRUCT, 22, 1, 4, 7, 10, 12, 14, 16, 18, 20),
    ),
)

# Paper 5: Block once on each id. Eight logs in a binding array, each a count and lines of
# any number: their struct has Block by its dynamic array, and no global repeats it. Lanes
# in another binding array, whose struct has Block by the first global of the two.
SAMPLES["blocks"] = (
    sheet(
        scalar(UINT, 4),  # 0
        array(0, 0, 4),  # 1: lines
        struct(4, member(0, 0), member(1, 4)),  # 2: a log
        binding_array(2, 8),  # 3: logs
        struct(8, member(0, 0), member(0, 4)),  # 4: a lane
        binding_array(4, 0),  # 5: lanes
        global_(3, STORAGE, LOAD | STORE, at=(0, 0)),
        global_(3, STORAGE, LOAD, at=(0, 1)),
        global_(5, STORAGE, LOAD | STORE, at=(0, 2)),
        global_(5, STORAGE, LOAD, at=(0, 3)),
    ),
    module(
        14,
        (DECORATE, 2, ARRAY_STRIDE, 4),
        (MEMBER_DECORATE, 3, 0, OFFSET, 0),
        (MEMBER_DECORATE, 3, 1, OFFSET, 4),
        (DECORATE, 3, BLOCK),
        (MEMBER_DECORATE, 6, 0, OFFSET, 0),
        (MEMBER_DECORATE, 6, 1, OFFSET, 4),
        (DECORATE, 8, DESCRIPTOR_SET, 0),
        (DECORATE, 8, BINDING, 0),
        (DECORATE, 10, NON_WRITABLE),
        (DECORATE, 10, DESCRIPTOR_SET, 0),
        (DECORATE, 10, BINDING, 1),
        (DECORATE, 11, DESCRIPTOR_SET, 0),
        (DECORATE, 11, BINDING, 2),
        (DECORATE, 6, BLOCK),
        (DECORATE, 13, NON_WRITABLE),
        (DECORATE, 13, DESCRIPTOR_SET, 0),
        (DECORATE, 13, BINDING, 3),
        (TYPE_INT, 1, 32, 0),
        (TYPE_RUNTIME_ARRAY, 2, 1),
        (TYPE_STRUCT, 3, 1, 2),
        (CONSTANT, 1, 5, 8),
        (TYPE_ARRAY, 4, 3, 5),
        (TYPE_STRUCT, 6, 1, 1),
        (TYPE_RUNTIME_ARRAY, 7, 6),
        (TYPE_POINTER, 9, STORAGE_BUFFER_CLASS, 4),
        (VARIABLE, 9, 8, STORAGE_BUFFER_CLASS),
        (VARIABLE, 9, 10, STORAGE_BUFFER_CLASS),
        (TYPE_POINTER, 12, STORAGE_BUFFER_CLASS, 7),
        (VARIABLE, 12, 11, STORAGE_BUFFER_CLASS),
        (VARIABLE, 12, 13, STORAGE_BUFFER_CLASS),
    ),
)

# A camera tunnel's tables as a warehouse might draw them: frames and chutes in a
# uniform buffer, the chute log in a storage buffer, pictures by binding array.
TUNNEL = sheet(
    available(1, 22, 49),  # Shader, Int16, StorageImageExtendedFormats
    remap(1, 0, 6),  # six cameras hang in this gantry
    scalar(FLOAT, 4, "metre"),  # 0
    scalar(UINT, 4, "count"),  # 1
    scalar(UINT, 2, "chute number"),  # 2
    vector(3, FLOAT, 4, "place"),  # 3
    matrix(4, 3, 4, "frame"),  # 4
    matrix(2, 2, 4, "skew"),  # 5
    array(5, 6, 16, "skews"),  # 6
    struct(  # 7
        32,
        member(3, 0, "centre"),
        member(0, 12, "width"),
        member(1, 16, "trays"),
        member(2, 20, "number"),
        name="Chute",
    ),
    array(7, 48, 32, "chutes"),  # 8
    struct(  # 9
        1712,
        member(4, 0, "belt"),
        member(6, 64, "skews"),
        member(8, 160, "chutes"),
        member(1, 1696, "used"),
        name="Table",
    ),
    vector(4, UINT, 4, "log line"),  # 10
    array(10, 0, 16, "log lines"),  # 11
    struct(16, member(1, 0, "count"), member(11, 16, "lines"), name="Log"),  # 12
    atomic(UINT, 4, "ticket"),  # 13: shares the id of 1
    array(13, 48, 4, "tickets"),  # 14
    image(D2, 0, SAMPLED, FLOAT, 0, "picture"),  # 15
    binding_array(15, 0, "pictures"),  # 16: its size comes from the remap
    sampler(0, "label sampler"),  # 17
    image(D2, 1, STORED, 0, STORE, "mask"),  # 18: R8Unorm
    vector(2, FLOAT, 4, "slope"),  # 19
    struct(16, member(19, 0, "slope"), member(1, 8, "lane"), name="Wave"),  # 20
    array(3, 2, 16, "ends"),  # 21
    f32(0x3F000000),  # 0: one half
    u32_literal(48),  # 1: also the length of two arrays above
    f32(0xBF000000),  # 2: minus one half
    alias(0),  # 3
    compose(3, 0, 2, 3),  # 4: a place
    zero(3),  # 5: the place at the origin
    compose(21, 4, 5),  # 6: both ends
    splat(2, 3),  # 7: a slope
    compose(20, 7, 1),  # 8: a wave
    global_(9, UNIFORM, at=(0, 0), name="table"),
    global_(12, STORAGE, LOAD | STORE, at=(0, 1), name="log"),
    global_(8, STORAGE, LOAD, at=(0, 2), name="spare chutes"),
    global_(16, HANDLE, at=(1, 0), name="pictures"),
    global_(17, HANDLE, at=(1, 1), name="label sampler"),
    global_(18, HANDLE, at=(1, 2), name="mask"),
    global_(21, PRIVATE, init=6, name="ends"),
    global_(9, PRIVATE, name="last table"),
    global_(14, WORKGROUP, name="tickets"),
    global_(20, PUSH_CONSTANT, name="wave"),
    flags=DEBUG | NATIVE_ZERO,
)


def main(folder, driver):
    answer = subprocess.run(
        [driver, "answer", "reference"],
        input=TUNNEL.hex(), capture_output=True, text=True, check=True,
    ).stdout
    tunnel = answer.split("|")[1].split()
    for name, (data, words) in {**SAMPLES, "tunnel": (TUNNEL, tunnel)}.items():
        (folder / f"{name}.sheet").write_bytes(data)
        (folder / f"{name}.words").write_text("\n".join(words) + "\n")


if __name__ == "__main__":
    main(Path(sys.argv[1]), sys.argv[2])
