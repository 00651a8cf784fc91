//! Runs the published Rust on a sheet: decodes record by record into naga's IR
//! and calls, for each, the function that document 01 or paper 2 names.

use crate::sheet::{self, *};
use naga::back::spv;
use naga::proc::TypeResolution;
use naga::valid::ModuleInfo;
use naga::{Expression, Handle, Span, TypeInner, VectorSize};
use std::collections::HashSet;
use std::num::NonZeroU32;

/// What the Rust makes of a sheet.
pub enum Answer {
    /// The words, and for each global whether it is wrapped.
    Module(Vec<u32>, Vec<bool>),
    /// The record at which a capability is missing.
    Missing(usize),
}

/// Handles of what was read so far, by index of the sheet.
struct Reader {
    module: naga::Module,
    info: ModuleInfo,
    types: Vec<Handle<naga::Type>>,
    constants: Vec<Handle<Expression>>,
    globals: Vec<Handle<naga::GlobalVariable>>,
    /// An alias goes through a named constant, whose type the Rust never reads.
    unread: Handle<naga::Type>,
}

/// What a record was entered as.
enum Entered {
    Type(Handle<naga::Type>),
    /// Return type, none for void, and parameters: no part of naga's IR has these alone.
    Function(Option<Handle<naga::Type>>, Vec<Handle<naga::Type>>),
    Constant(Handle<Expression>),
    Global(Handle<naga::GlobalVariable>),
}

/// Only for sheets of the comparison's domain: those that Check fits, and those
/// with start at most 4,194,302 that it refuses with 14.
pub fn run(bytes: &[u8]) -> Answer {
    let mut options = options(bytes);
    let mut reader = Reader::new(constants_of(bytes));
    // The options are known once the first record that writes something comes.
    let mut writer = None;
    // How many capabilities the Rust has used before the first type of 16-bit floats.
    let mut float16 = None;
    let mut rest = &bytes[HEADER..];
    let mut index = 0;
    while let Some((record, after)) = next_record(rest) {
        let half = matches!(&record, Record::Type(t) if t.inner.is_half());
        if let Some(entered) = reader.enter(&mut options, record) {
            reader.keep(&entered);
            let w = writer.get_or_insert_with(|| empty_writer(&options, bytes));
            if half && float16.is_none() {
                float16 = Some(w.reference_capabilities());
            }
            match reader.write(w, &entered) {
                Ok(_) => {}
                Err(spv::Error::MissingCapabilities(..)) => return Answer::Missing(index),
                Err(other) => panic!("the reference answered {other:?}"),
            }
        }
        rest = after;
        index += 1;
    }
    let writer = writer.unwrap_or_else(|| empty_writer(&options, bytes));
    let wrapped = |&global| spv::Writer::reference_wrapped(&reader.module, global);
    let mut words = writer.reference_words();
    if let Some(before) = float16 {
        put_float16(&mut words, before);
    }
    Answer::Module(words, reader.globals.iter().map(wrapped).collect())
}

/// Paper 1: "At width 2 the comparison with the Rust is made with the Float16 line taken
/// out", since the Rust lists none. A side's words are those with the line, so here it is
/// put in, where it is due by order of first use, and no other word is touched: a side that
/// agrees has the Rust's words once the line is taken out, and one whose line is missing,
/// repeated or elsewhere does not agree.
fn put_float16(words: &mut Vec<u32>, before: usize) {
    const CAPABILITY: u32 = 2 << 16 | 17;
    const FLOAT16: u32 = 9;
    const MODULE_HEADER: usize = 5;
    let listed =
        || (MODULE_HEADER..words.len()).step_by(2).take_while(|&at| words[at] == CAPABILITY);
    assert!(listed().count() >= before && listed().all(|at| words[at + 1] != FLOAT16));
    let at = MODULE_HEADER + 2 * before;
    words.splice(at..at, [CAPABILITY, FLOAT16]);
}

/// What `run` answers, held against the other sides: paper 5, "Runs against the Rust drop its
/// repeats before comparing". Beside it the instructions that were dropped, in order.
pub fn run_without_repeats(bytes: &[u8]) -> (Answer, Vec<Vec<u32>>) {
    match run(bytes) {
        Answer::Module(words, wrapped) => {
            let (words, dropped) = drop_repeats(&words);
            (Answer::Module(words, wrapped), dropped)
        }
        missing => (missing, Vec::new()),
    }
}

/// Paper 5: "no id carries the same decoration twice, and no member either. The first writing
/// stays and later ones are dropped." The same is what has the same number. All words go
/// over as they are, header and names too, but for those of the instructions that repeat a
/// decoration: these are handed back, so that none goes unseen.
pub fn drop_repeats(words: &[u32]) -> (Vec<u32>, Vec<Vec<u32>>) {
    const DECORATE: u32 = 71;
    const MEMBER_DECORATE: u32 = 72;
    const MODULE_HEADER: usize = 5;
    let (front, mut rest) = words.split_at(MODULE_HEADER);
    let (mut kept, mut dropped) = (front.to_vec(), Vec::new());
    let mut carried = HashSet::new();
    while !rest.is_empty() {
        let (opcode, count) = (rest[0] & 0xffff, (rest[0] >> 16) as usize);
        assert!(count > 0, "the Rust's words are instructions");
        let (instruction, after) = rest.split_at(count);
        let first = match opcode {
            DECORATE => carried.insert((instruction[1], None, instruction[2])),
            MEMBER_DECORATE => {
                carried.insert((instruction[1], Some(instruction[2]), instruction[3]))
            }
            _ => true,
        };
        match first {
            true => kept.extend(instruction),
            false => dropped.push(instruction.to_vec()),
        }
        rest = after;
    }
    (kept, dropped)
}

/// Whether an instruction puts Block on an id, which is all that the Rust repeats.
pub fn is_block(instruction: &[u32]) -> bool {
    const BLOCK: u32 = 2;
    matches!(*instruction, [first, _, BLOCK] if first == 3 << 16 | 71)
}

/// A sheet that Check fits, entered in full, for the benchmark to write on its own.
#[cfg(bench)]
pub struct Ready<'a> {
    bytes: &'a [u8],
    options: spv::Options<'a>,
    reader: Reader,
    entered: Vec<Entered>,
}

#[cfg(bench)]
impl<'a> Ready<'a> {
    pub fn new(bytes: &'a [u8]) -> Self {
        let mut options = options(bytes);
        let mut reader = Reader::new(constants_of(bytes));
        let mut entered = Vec::new();
        let mut rest = &bytes[HEADER..];
        while let Some((record, after)) = next_record(rest) {
            let next = reader.enter(&mut options, record);
            next.iter().for_each(|entered| reader.keep(entered));
            entered.extend(next);
            rest = after;
        }
        Ready { bytes, options, reader, entered }
    }

    pub fn write(&self) -> Vec<u32> {
        let mut writer = empty_writer(&self.options, self.bytes);
        for entered in &self.entered {
            self.reader.write(&mut writer, entered).expect("a sheet that fits");
        }
        writer.reference_words()
    }
}

/// The words of a sheet that Check need not fit, for tests/panics: it is entered as a whole, and a reference names the
/// entry of its index, whether that is there or not. Then each record's function is called, which may panic.
#[cfg(whole)]
pub fn run_whole(bytes: &[u8]) -> Result<Vec<u32>, spv::Error> {
    let mut options = options(bytes);
    let mut reader = Reader::new(constants_of(bytes));
    reader.name_all();
    let mut entered = Vec::new();
    let mut rest = &bytes[HEADER..];
    while let Some((record, after)) = next_record(rest) {
        entered.extend(reader.enter(&mut options, record));
        rest = after;
    }
    let mut writer = empty_writer(&options, bytes);
    for entered in &entered {
        reader.write(&mut writer, entered)?;
    }
    Ok(writer.reference_words())
}

/// The options that the sheet's header gives.
fn options<'a>(bytes: &[u8]) -> spv::Options<'a> {
    let flags = bytes[5];
    spv::Options {
        lang_version: (1, 3),
        flags: match flags & DEBUG {
            0 => spv::WriterFlags::empty(),
            _ => spv::WriterFlags::DEBUG,
        },
        zero_initialize_workgroup_memory: match flags & NATIVE_ZERO {
            0 => spv::ZeroInitializeWorkgroupMemoryMode::None,
            _ => spv::ZeroInitializeWorkgroupMemoryMode::Native,
        },
        ..spv::Options::default()
    }
}

fn empty_writer(options: &spv::Options, bytes: &[u8]) -> spv::Writer {
    let start = u32::from_be_bytes(bytes[1..5].try_into().expect("4 bytes"));
    spv::Writer::reference_empty(options, start)
}

/// How many records have a constant's tag. Behind a record that misses a
/// capability a sheet may hold anything, which is counted as it comes.
fn constants_of(bytes: &[u8]) -> usize {
    let mut rest = &bytes[HEADER..];
    let mut count = 0;
    while let [high, low, tag, ..] = *rest {
        count += matches!(tag, 64..=68) as usize;
        rest = rest.get(2 + u16::from_be_bytes([high, low]) as usize..).unwrap_or(&[]);
    }
    count
}

fn name(name: Name) -> Option<String> {
    name.map(|bytes| String::from_utf8(bytes).expect("tested by 9"))
}

fn kind(kind: u8) -> naga::ScalarKind {
    match kind {
        SINT => naga::ScalarKind::Sint,
        UINT => naga::ScalarKind::Uint,
        FLOAT => naga::ScalarKind::Float,
        _ => naga::ScalarKind::Bool,
    }
}

fn vector_size(size: u8) -> VectorSize {
    match size {
        2 => VectorSize::Bi,
        3 => VectorSize::Tri,
        _ => VectorSize::Quad,
    }
}

fn access(bits: u8) -> naga::StorageAccess {
    naga::StorageAccess::from_bits_truncate(bits as u32)
}

fn space(space: u8, bits: u8) -> naga::AddressSpace {
    match space {
        FUNCTION => naga::AddressSpace::Function,
        PRIVATE => naga::AddressSpace::Private,
        WORKGROUP => naga::AddressSpace::WorkGroup,
        UNIFORM => naga::AddressSpace::Uniform,
        STORAGE => naga::AddressSpace::Storage { access: access(bits) },
        HANDLE => naga::AddressSpace::Handle,
        _ => naga::AddressSpace::PushConstant,
    }
}

fn array_size(size: u32) -> naga::ArraySize {
    match NonZeroU32::new(size) {
        Some(size) => naga::ArraySize::Constant(size),
        None => naga::ArraySize::Dynamic,
    }
}

fn image_class(class: u8, first: u8, second: u8) -> naga::ImageClass {
    match class {
        SAMPLED => naga::ImageClass::Sampled { kind: kind(first), multi: second == 1 },
        DEPTH => naga::ImageClass::Depth { multi: second == 1 },
        _ => naga::ImageClass::Storage { format: FORMATS[first as usize], access: access(second) },
    }
}

fn dimension(dim: u8) -> naga::ImageDimension {
    match dim {
        D1 => naga::ImageDimension::D1,
        1 => naga::ImageDimension::D2,
        2 => naga::ImageDimension::D3,
        _ => naga::ImageDimension::Cube,
    }
}

/// In the order of the arms of `From<StorageFormat>` in instructions.rs.
const FORMATS: [naga::StorageFormat; 40] = {
    use naga::StorageFormat::*;
    [
        R8Unorm,
        R8Snorm,
        R8Uint,
        R8Sint,
        R16Uint,
        R16Sint,
        R16Float,
        Rg8Unorm,
        Rg8Snorm,
        Rg8Uint,
        Rg8Sint,
        R32Uint,
        R32Sint,
        R32Float,
        Rg16Uint,
        Rg16Sint,
        Rg16Float,
        Rgba8Unorm,
        Rgba8Snorm,
        Rgba8Uint,
        Rgba8Sint,
        Bgra8Unorm,
        Rgb10a2Uint,
        Rgb10a2Unorm,
        Rg11b10Float,
        Rg32Uint,
        Rg32Sint,
        Rg32Float,
        Rgba16Uint,
        Rgba16Sint,
        Rgba16Float,
        Rgba32Uint,
        Rgba32Sint,
        Rgba32Float,
        R16Unorm,
        R16Snorm,
        Rg16Unorm,
        Rg16Snorm,
        Rgba16Unorm,
        Rgba16Snorm,
    ]
};

impl Reader {
    fn new(constants: usize) -> Self {
        let scalar = TypeInner::Scalar { kind: naga::ScalarKind::Bool, width: 1 };
        let unread = naga::UniqueArena::default()
            .insert(naga::Type { name: None, inner: scalar }, Span::default());
        Reader {
            module: naga::Module::default(),
            info: ModuleInfo::of_constants(constants, || TypeResolution::Handle(unread)),
            types: Vec::new(),
            constants: Vec::new(),
            globals: Vec::new(),
            unread,
        }
    }

    fn ty(&self, index: u16) -> Handle<naga::Type> {
        self.types[index as usize]
    }

    fn constant(&self, index: u16) -> Handle<Expression> {
        self.constants[index as usize]
    }

    /// Enters a record into naga's IR, or into the options.
    fn enter(&mut self, options: &mut spv::Options, record: Record) -> Option<Entered> {
        Some(match record {
            Record::Available(list) => {
                let known = list.into_iter().filter_map(spv::Capability::from_number);
                options.capabilities = Some(known.collect());
                return None;
            }
            Record::Remap { group, binding, size } => {
                let info = spv::BindingInfo { binding_array_size: Some(size) };
                options.binding_map.insert(naga::ResourceBinding { group, binding }, info);
                return None;
            }
            Record::Type(t) => {
                let ty = naga::Type { name: name(t.name), inner: self.inner(t.inner) };
                Entered::Type(self.module.types.insert(ty, Span::default()))
            }
            Record::Function(FunctionType { return_type, parameters }) => {
                let returned = (return_type != VOID).then(|| self.ty(return_type));
                Entered::Function(returned, parameters.into_iter().map(|p| self.ty(p)).collect())
            }
            Record::Constant(c) => {
                let resolution = self.resolution(&c);
                self.info.set_constant(self.module.const_expressions.len(), resolution);
                let expression = self.expression(c);
                Entered::Constant(self.module.const_expressions.append(expression, Span::default()))
            }
            Record::Global(g) => {
                let global = naga::GlobalVariable {
                    name: name(g.name),
                    space: space(g.space, g.access),
                    binding: (g.bound == 1)
                        .then_some(naga::ResourceBinding { group: g.group, binding: g.binding }),
                    ty: self.ty(g.ty),
                    init: (g.init != NO_INIT).then(|| self.constant(g.init)),
                };
                Entered::Global(self.module.global_variables.append(global, Span::default()))
            }
        })
    }

    /// Keeps the handle of what was entered, for references to it.
    fn keep(&mut self, entered: &Entered) {
        match *entered {
            Entered::Type(handle) => {
                assert_eq!(handle.index(), self.types.len(), "12 refuses a repeated type");
                self.types.push(handle);
            }
            // Nothing refers to one.
            Entered::Function(..) => {}
            Entered::Constant(handle) => self.constants.push(handle),
            Entered::Global(handle) => self.globals.push(handle),
        }
    }

    /// A handle for each index that a reference can name. A handle is a number and no more, so that those of other
    /// arenas serve.
    #[cfg(whole)]
    fn name_all(&mut self) {
        let (mut types, mut constants) = (naga::Arena::new(), naga::Arena::new());
        for _ in 0..=u16::MAX {
            let ty = naga::Type { name: None, inner: TypeInner::RayQuery };
            self.types.push(types.append(ty, Span::default()));
            let constant = Expression::Literal(naga::Literal::Bool(true));
            self.constants.push(constants.append(constant, Span::default()));
        }
    }

    /// The function that document 01, or paper 2 for a function record, names for a record.
    fn write(&self, writer: &mut spv::Writer, entered: &Entered) -> Result<u32, spv::Error> {
        match *entered {
            Entered::Type(handle) => writer.reference_type(&self.module, handle),
            Entered::Function(returned, ref parameters) => {
                Ok(writer.reference_function(returned, parameters))
            }
            Entered::Constant(handle) => {
                writer.reference_constant(&self.module, &self.info, handle)
            }
            Entered::Global(handle) => writer.reference_global(&self.module, handle),
        }
    }

    fn inner(&self, inner: Inner) -> TypeInner {
        match inner {
            Inner::Scalar { kind: k, width } => TypeInner::Scalar { kind: kind(k), width },
            Inner::Vector { size, kind: k, width } => {
                TypeInner::Vector { size: vector_size(size), kind: kind(k), width }
            }
            Inner::Matrix { columns, rows, width } => {
                TypeInner::Matrix { columns: vector_size(columns), rows: vector_size(rows), width }
            }
            Inner::Atomic { kind: k, width } => TypeInner::Atomic { kind: kind(k), width },
            Inner::Pointer { base, space: s, access } => {
                TypeInner::Pointer { base: self.ty(base), space: space(s, access) }
            }
            Inner::ValuePointer { size, kind: k, width, space: s, access } => {
                TypeInner::ValuePointer {
                    size: (size != 0).then(|| vector_size(size)),
                    kind: kind(k),
                    width,
                    space: space(s, access),
                }
            }
            Inner::Array { base, size, stride } => {
                TypeInner::Array { base: self.ty(base), size: array_size(size), stride }
            }
            Inner::Struct { span, members } => {
                let member = |m: Member| naga::StructMember {
                    name: name(m.name),
                    ty: self.ty(m.ty),
                    binding: None,
                    offset: m.offset,
                };
                TypeInner::Struct { members: members.into_iter().map(member).collect(), span }
            }
            Inner::Image { dim, arrayed, class, first, second } => TypeInner::Image {
                dim: dimension(dim),
                arrayed: arrayed == 1,
                class: image_class(class, first, second),
            },
            Inner::Sampler { comparison } => TypeInner::Sampler { comparison: comparison == 1 },
            Inner::AccelerationStructure => TypeInner::AccelerationStructure,
            Inner::RayQuery => TypeInner::RayQuery,
            Inner::BindingArray { base, size } => {
                TypeInner::BindingArray { base: self.ty(base), size: array_size(size) }
            }
        }
    }

    fn expression(&mut self, constant: Constant) -> Expression {
        match constant {
            Constant::Literal(literal) => Expression::Literal(match literal {
                sheet::Literal::F64(bits) => naga::Literal::F64(f64::from_bits(bits)),
                sheet::Literal::F32(bits) => naga::Literal::F32(f32::from_bits(bits)),
                sheet::Literal::U32(bits) => naga::Literal::U32(bits),
                sheet::Literal::I32(bits) => naga::Literal::I32(bits as i32),
                sheet::Literal::Bool(value) => naga::Literal::Bool(value == 1),
            }),
            Constant::Alias(of) => {
                let named = naga::Constant {
                    name: None,
                    r#override: naga::Override::None,
                    ty: self.unread,
                    init: self.constant(of),
                };
                Expression::Constant(self.module.constants.append(named, Span::default()))
            }
            Constant::Zero(ty) => Expression::ZeroValue(self.ty(ty)),
            Constant::Compose { ty, parts } => Expression::Compose {
                ty: self.ty(ty),
                components: parts.into_iter().map(|p| self.constant(p)).collect(),
            },
            Constant::Splat { size, value } => {
                Expression::Splat { size: vector_size(size), value: self.constant(value) }
            }
        }
    }

    /// A constant's type as the validator would resolve it. Only a Splat's is
    /// read; for the others it is left as a handle to no purpose.
    fn resolution(&self, constant: &Constant) -> TypeResolution {
        match *constant {
            Constant::Splat { size, value } => match self.scalar(self.constant(value)) {
                Some((kind, width)) => TypeResolution::Value(TypeInner::Vector {
                    size: vector_size(size),
                    kind,
                    width,
                }),
                None => self.no_scalar(self.constant(value)),
            },
            _ => TypeResolution::Handle(self.unread),
        }
    }

    /// The scalar of a literal or of a zero of Scalar type, aliases followed.
    fn scalar(&self, handle: Handle<Expression>) -> Option<(naga::ScalarKind, u8)> {
        match *self.module.const_expressions.try_get(handle).ok()? {
            Expression::Literal(literal) => Some((literal.scalar_kind(), literal.width())),
            Expression::Constant(named) => self.scalar(self.module.constants[named].init),
            Expression::ZeroValue(ty) => match self.module.types[ty].inner {
                TypeInner::Scalar { kind, width } => Some((kind, width)),
                _ => None,
            },
            _ => None,
        }
    }

    /// The type of a Splat of anything else: a sheet of the domain has none.
    #[cfg(not(whole))]
    fn no_scalar(&self, _: Handle<Expression>) -> TypeResolution {
        panic!("13 refuses a Splat of this")
    }

    /// The type of a Splat of anything else: that of what is repeated, where it is there.
    #[cfg(whole)]
    fn no_scalar(&self, handle: Handle<Expression>) -> TypeResolution {
        let ty = match self.module.const_expressions.try_get(handle) {
            Ok(&Expression::ZeroValue(ty)) | Ok(&Expression::Compose { ty, .. }) => ty,
            _ => return TypeResolution::Handle(self.unread),
        };
        TypeResolution::Value(match self.module.types[ty].inner {
            TypeInner::Vector { size, kind, width } => TypeInner::Vector { size, kind, width },
            TypeInner::Matrix { columns, rows, width } => {
                TypeInner::Matrix { columns, rows, width }
            }
            TypeInner::Atomic { kind, width } => TypeInner::Atomic { kind, width },
            // Of an aggregate the Rust only finds that it has no shape.
            _ => TypeInner::Struct { members: Vec::new(), span: 0 },
        })
    }
}
