//! Stands for `From<StorageFormat> for ScalarKind` in `src/proc/mod.rs`. Ground:
//! document 01, "A storage format's sampled kind is Uint or Sint if its name
//! ends so, else Float".

impl From<crate::StorageFormat> for crate::ScalarKind {
    fn from(format: crate::StorageFormat) -> Self {
        let name = format!("{format:?}");
        if name.ends_with("Uint") {
            Self::Uint
        } else if name.ends_with("Sint") {
            Self::Sint
        } else {
            Self::Float
        }
    }
}
