//! Stands for `src/back/spv/recyclable.rs`: emptying a collection to use its
//! memory again. Only `Writer::reset` does that, which the reference never
//! calls.

pub trait Recyclable: Sized {
    fn recycle(self) -> Self {
        unreachable!("no writer is used twice")
    }
}

impl<T> Recyclable for Vec<T> {}
impl<K, V, S> Recyclable for std::collections::HashMap<K, V, S> {}
impl<T, S> Recyclable for indexmap::IndexSet<T, S> {}
impl<K, V> Recyclable for std::collections::BTreeMap<K, V> {}
