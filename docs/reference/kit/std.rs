//! The items of Rattle's standard library that the signatures of the libraries name, in the form that they have there.
#![no_std]
#![allow(unused)]

pub use core::{array, mem, net, num, ops, slice, str};

pub mod prelude {
    pub use crate::clone::Clone;
    pub use crate::cmp::{Eq, Ord, PartialEq, PartialOrd};
    pub use crate::convert::{From, TryFrom};
    pub use crate::default::Default;
    pub use crate::iter::Iterator;
    pub use crate::runtime::HostRuntime;
    pub use crate::string::String;
    pub use crate::vec::Vec;
}

pub mod alloc {
    pub struct AllocError;
    pub struct Global;
}

pub mod clone {
    use crate::alloc::AllocError;

    pub trait Clone: Sized {
        fn clone(&self) -> Result<Self, AllocError>;
    }
}

pub mod cmp {
    pub use core::cmp::{Ordering, min};

    pub trait PartialEq<Rhs: ?Sized = Self> {
        fn eq(&self, other: &Rhs) -> bool;
    }

    pub trait Eq {}

    pub trait PartialOrd<Rhs: ?Sized = Self> {
        fn partial_cmp(&self, other: &Rhs) -> Option<Ordering>;
    }

    pub trait Ord {
        fn cmp(&self, other: &Self) -> Ordering;
    }
}

pub mod collections {
    pub struct BTreeMap<K, V>(core::marker::PhantomData<(K, V)>);

    pub struct HashMap<K, V, S>(core::marker::PhantomData<(K, V, S)>);
}

pub mod convert {
    pub trait From<T> {
        fn from(value: T) -> Self;
    }

    pub trait TryFrom<T>: Sized {
        type Error;

        fn try_from(value: T) -> Result<Self, Self::Error>;
    }
}

pub mod default {
    pub trait Default {
        fn default() -> Self;
    }
}

pub mod error {
    pub trait Error {}
}

pub mod fmt {
    pub use core::fmt::Result;

    pub struct Formatter<'a, W>(core::marker::PhantomData<&'a mut W>);

    pub trait Write {}

    pub trait Debug {
        fn fmt<W: Write>(&self, f: &mut Formatter<W>) -> Result;
    }

    pub trait Display {
        fn fmt<W: Write>(&self, f: &mut Formatter<W>) -> Result;
    }
}

pub mod hash {
    pub trait Hasher {}

    pub trait Hash {
        fn hash<H: Hasher>(&self, state: &mut H);
    }

    /// The random keys of hashes.
    pub struct RandomState;
}

pub mod env {
    pub trait Env {}

    pub enum FillError {}
}

pub mod io {
    pub struct Error;

    pub enum ErrorKind {}

    pub type Result<T> = core::result::Result<T, Error>;

    pub trait BufRead {}

    pub trait Read {}

    pub trait Write {}
}

pub mod iter {
    pub trait Iterator {
        type Item;

        fn next(&mut self) -> Option<Self::Item>;
        fn size_hint(&self) -> (usize, Option<usize>);
    }
}

pub mod marker {
    pub trait Model {}
}

pub mod runtime {
    /// What a program has of its host: arguments, files, streams and memory.
    pub struct HostRuntime;
}

pub mod string {
    pub struct String;
}

pub mod vec {
    pub struct Vec<T>(core::marker::PhantomData<T>);
}
