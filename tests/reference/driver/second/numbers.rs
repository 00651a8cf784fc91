//! Numbers of the SPIR-V Specification, by its names.

use crate::sheet::{FLOAT, SINT, UINT};

pub mod op {
    pub const NAME: u16 = 5;
    pub const MEMBER_NAME: u16 = 6;
    pub const CAPABILITY: u16 = 17;
    pub const TYPE_VOID: u16 = 19;
    pub const TYPE_BOOL: u16 = 20;
    pub const TYPE_INT: u16 = 21;
    pub const TYPE_FLOAT: u16 = 22;
    pub const TYPE_VECTOR: u16 = 23;
    pub const TYPE_MATRIX: u16 = 24;
    pub const TYPE_IMAGE: u16 = 25;
    pub const TYPE_SAMPLER: u16 = 26;
    pub const TYPE_ARRAY: u16 = 28;
    pub const TYPE_RUNTIME_ARRAY: u16 = 29;
    pub const TYPE_STRUCT: u16 = 30;
    pub const TYPE_POINTER: u16 = 32;
    pub const TYPE_FUNCTION: u16 = 33;
    pub const CONSTANT_TRUE: u16 = 41;
    pub const CONSTANT_FALSE: u16 = 42;
    pub const CONSTANT: u16 = 43;
    pub const CONSTANT_COMPOSITE: u16 = 44;
    pub const CONSTANT_NULL: u16 = 46;
    pub const VARIABLE: u16 = 59;
    pub const DECORATE: u16 = 71;
    pub const MEMBER_DECORATE: u16 = 72;
    pub const TYPE_RAY_QUERY: u16 = 4472;
    pub const TYPE_ACCELERATION_STRUCTURE: u16 = 5341;
}

pub mod decoration {
    pub const BLOCK: u64 = 2;
    pub const COL_MAJOR: u64 = 5;
    pub const ARRAY_STRIDE: u64 = 6;
    pub const MATRIX_STRIDE: u64 = 7;
    pub const NON_WRITABLE: u64 = 24;
    pub const NON_READABLE: u64 = 25;
    pub const BINDING: u64 = 33;
    pub const DESCRIPTOR_SET: u64 = 34;
    pub const OFFSET: u64 = 35;
}

pub mod capability {
    pub const LINKAGE: u32 = 5; // only for a fault
    pub const FLOAT16: u32 = 9;
    pub const FLOAT64: u32 = 10;
    pub const INT64: u32 = 11;
    pub const INT16: u32 = 22;
    pub const IMAGE_CUBE_ARRAY: u32 = 34;
    pub const INT8: u32 = 39;
    pub const SAMPLED_1D: u32 = 43;
    pub const IMAGE_1D: u32 = 44;
    pub const SAMPLED_CUBE_ARRAY: u32 = 45;
    pub const STORAGE_IMAGE_EXTENDED_FORMATS: u32 = 49;
    pub const STORAGE_BUFFER_16BIT_ACCESS: u32 = 4433; // only for a fault
    pub const RAY_QUERY: u32 = 4472;
}

/// Storage classes in the order of document 01's spaces.
pub const CLASSES: [u8; 7] = [7, 6, 4, 2, 12, 0, 9];

/// For each storage format, in the order of `From<StorageFormat>`: how its name
/// ends (the sampled kind), the specification's Image Format, and whether
/// `request_image_format_capabilities` wants StorageImageExtendedFormats.
pub const FORMATS: [(u8, u8, bool); 40] = [
    (FLOAT, 15, true), // R8Unorm
    (FLOAT, 20, true), // R8Snorm
    (UINT, 39, true),  // R8Uint
    (SINT, 29, true),  // R8Sint
    (UINT, 38, true),  // R16Uint
    (SINT, 28, true),  // R16Sint
    (FLOAT, 9, true),  // R16Float
    (FLOAT, 13, true), // Rg8Unorm
    (FLOAT, 18, true), // Rg8Snorm
    (UINT, 37, true),  // Rg8Uint
    (SINT, 27, true),  // Rg8Sint
    (UINT, 33, false), // R32Uint
    (SINT, 24, false), // R32Sint
    (FLOAT, 3, false), // R32Float
    (UINT, 36, true),  // Rg16Uint
    (SINT, 26, true),  // Rg16Sint
    (FLOAT, 7, true),  // Rg16Float
    (FLOAT, 4, false), // Rgba8Unorm
    (FLOAT, 5, false), // Rgba8Snorm
    (UINT, 32, false), // Rgba8Uint
    (SINT, 23, false), // Rgba8Sint
    (FLOAT, 0, false), // Bgra8Unorm
    (UINT, 34, true),  // Rgb10a2Uint
    (FLOAT, 11, true), // Rgb10a2Unorm
    (FLOAT, 8, true),  // Rg11b10Float
    (UINT, 35, true),  // Rg32Uint
    (SINT, 25, true),  // Rg32Sint
    (FLOAT, 6, true),  // Rg32Float
    (UINT, 31, false), // Rgba16Uint
    (SINT, 22, false), // Rgba16Sint
    (FLOAT, 2, false), // Rgba16Float
    (UINT, 30, false), // Rgba32Uint
    (SINT, 21, false), // Rgba32Sint
    (FLOAT, 1, false), // Rgba32Float
    (FLOAT, 14, true), // R16Unorm
    (FLOAT, 19, true), // R16Snorm
    (FLOAT, 12, true), // Rg16Unorm
    (FLOAT, 17, true), // Rg16Snorm
    (FLOAT, 10, true), // Rgba16Unorm
    (FLOAT, 16, true), // Rgba16Snorm
];
