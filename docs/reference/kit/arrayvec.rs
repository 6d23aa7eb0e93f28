//! The types of `arrayvec` that the signatures of the libraries name.
#![no_std]

/// A list of at most `N` values, which are in the value itself.
pub struct ArrayVec<T, const N: usize>(core::marker::PhantomData<[T; N]>);

/// A text of at most `N` bytes, which are in the value itself.
pub struct ArrayString<const N: usize>;
