"""Sheets of documents 01 and 02, spelt in Python: for the samples and the damaged sheets.

Written apart from the driver's own table (driver/sheet.rs), so that a slip in
either shows when the two meet. Nothing here tests a value: any field can be given
any number that its bytes hold.
"""

SINT, UINT, FLOAT, BOOL = range(4)
FUNCTION, PRIVATE, WORKGROUP, UNIFORM, STORAGE, HANDLE, PUSH_CONSTANT = range(7)
D1, D2, D3, CUBE = range(4)
SAMPLED, DEPTH, STORED = range(3)
LOAD, STORE = 1, 2
DEBUG, NATIVE_ZERO = 1, 2
NO_INIT = 65535
VOID = 65535
MAX_SHEET = 16384


def u16(n):
    return n.to_bytes(2, "big")


def u32(n):
    return n.to_bytes(4, "big")


def name_of(name):
    """None, a text, or bytes as they are."""
    if name is None:
        return b"\xff"
    raw = name.encode() if isinstance(name, str) else name
    return bytes([len(raw)]) + raw


def record(tag, body=b""):
    return u16(len(body) + 1) + bytes([tag]) + body


def sheet(*records, start=0, flags=0, version=1):
    return bytes([version]) + u32(start) + bytes([flags]) + b"".join(records)


def available(*numbers):
    return record(1, b"".join(map(u32, numbers)))


def remap(group, binding, size):
    return record(2, u32(group) + u32(binding) + u32(size))


def scalar(kind, width, name=None, tag=16):
    return record(tag, name_of(name) + bytes([kind, width]))


def vector(size, kind, width, name=None):
    return record(17, name_of(name) + bytes([size, kind, width]))


def matrix(columns, rows, width, name=None):
    return record(18, name_of(name) + bytes([columns, rows, width]))


def atomic(kind, width, name=None):
    return scalar(kind, width, name, tag=19)


def pointer(base, space, access=0, name=None):
    return record(20, name_of(name) + u16(base) + bytes([space, access]))


def value_pointer(size, kind, width, space, access=0, name=None):
    return record(21, name_of(name) + bytes([size, kind, width, space, access]))


def array(base, size, stride, name=None):
    return record(22, name_of(name) + u16(base) + u32(size) + u32(stride))


def member(base, offset, name=None):
    return u16(base) + u32(offset) + name_of(name)


def struct(span, *members, name=None, count=None):
    count = len(members) if count is None else count
    return record(23, name_of(name) + u32(span) + bytes([count]) + b"".join(members))


def image(dim, arrayed, image_class, first, second, name=None):
    return record(24, name_of(name) + bytes([dim, arrayed, image_class, first, second]))


def sampler(comparison=0, name=None):
    return record(25, name_of(name) + bytes([comparison]))


def acceleration_structure(name=None):
    return record(26, name_of(name))


def ray_query(name=None):
    return record(27, name_of(name))


def binding_array(base, size, name=None):
    return record(28, name_of(name) + u16(base) + u32(size))


def function(returned, *parameters, count=None):
    """`returned` and the parameters are types; VOID is returned where nothing is."""
    count = len(parameters) if count is None else count
    return record(48, u16(returned) + bytes([count]) + b"".join(map(u16, parameters)))


def f64(bits):
    return record(64, b"\0" + bits.to_bytes(8, "big"))


def f32(bits):
    return record(64, b"\1" + u32(bits))


def u32_literal(value):
    return record(64, b"\2" + u32(value))


def i32_literal(bits):
    return record(64, b"\3" + u32(bits))


def boolean(value):
    return record(64, b"\4" + bytes([value]))


def alias(constant):
    return record(65, u16(constant))


def zero(base):
    return record(66, u16(base))


def compose(base, *parts, count=None):
    count = len(parts) if count is None else count
    return record(67, u16(base) + u16(count) + b"".join(map(u16, parts)))


def splat(size, constant):
    return record(68, bytes([size]) + u16(constant))


def global_(base, space, access=0, at=None, init=NO_INIT, name=None, bound=None):
    """`at` is (group, binding), or None when unbound."""
    bound = int(at is not None) if bound is None else bound
    group, binding = at or (0, 0)
    fields = bytes([space, access, bound]) + u32(group) + u32(binding) + u16(init)
    return record(96, name_of(name) + u16(base) + fields)
