//! Stand-in for `ecow`: a plain vector, without its sharing.

pub type EcoVec<T> = Vec<T>;

#[macro_export]
macro_rules! eco_vec {
    ($($item:expr),* $(,)?) => { vec![$($item),*] };
}
