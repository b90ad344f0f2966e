//! Stands for `ppvm_tableau`, made from document 01: rows, coefficients and losses of one entry, Paulis and gates on its rows.

pub mod data;
pub mod measure;
pub mod probe;

pub mod prelude {
    pub use ppvm_traits::config::Config;
}

pub mod tableau_index {
    pub trait TableauIndex: Copy + Eq + std::hash::Hash + num::Zero {}
    impl TableauIndex for u64 {}
}

pub mod sparsevec {
    /// A list of values, each with its index.
    pub trait SparseVector<V, I>: Clone + IntoIterator<Item = (V, I)> {
        fn new() -> Self;
        fn len(&self) -> usize;
        fn push(&mut self, value: V, index: I);
        fn iter<'a>(&'a self) -> std::slice::Iter<'a, (V, I)>;
        fn retain<F: FnMut(&(V, I)) -> bool>(&mut self, f: F);
    }
    impl<V: Clone, I: Clone> SparseVector<V, I> for Vec<(V, I)> {
        fn new() -> Self {
            Vec::new()
        }
        fn len(&self) -> usize {
            Vec::len(self)
        }
        fn push(&mut self, value: V, index: I) {
            Vec::push(self, (value, index));
        }
        fn iter<'a>(&'a self) -> std::slice::Iter<'a, (V, I)> {
            <[(V, I)]>::iter(self)
        }
        fn retain<F: FnMut(&(V, I)) -> bool>(&mut self, f: F) {
            Vec::retain(self, f);
        }
    }
}

pub mod noise {
    /// Named in a `debug_assert!`, which a release build does not make.
    pub fn is_admissible_correlated_loss<C>(_: &[C; 3]) -> bool {
        unreachable!()
    }
}
