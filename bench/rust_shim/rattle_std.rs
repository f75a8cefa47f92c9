//! The names of Rattle's library that the crates use, over Rust's. Memory is never refused: an
//! allocation that fails ends the program.
#![allow(warnings)]
#![feature(portable_simd)]

pub use std::{cell, cmp, marker, mem, ops, process, simd, slice, fmt, convert, iter, option, result};

pub mod num {
    pub use std::num::*;

    pub fn nearest_i64_to_f64(number: i64) -> f64 {
        number as f64
    }

    pub fn nearest_u64_to_f64(number: u64) -> f64 {
        number as f64
    }

    pub fn saturating_f64_to_u64(number: f64) -> u64 {
        number as u64
    }
}

pub mod prelude {
    pub use crate::string::String;
    pub use crate::vec::Vec;
    pub use crate::rt::{Eprint, HostRuntime, Print};
    pub use crate::slices::{Items, Slices};
    pub use crate::prove;
}

pub mod alloc {
    #[derive(Clone, Copy, Debug, PartialEq, Eq)]
    pub struct Global;

    #[derive(Clone, Copy, Debug, PartialEq, Eq)]
    pub struct AllocError;

    pub trait AllocGlobal {
        fn alloc(&self) -> Global {
            Global
        }
    }
}

#[macro_export]
macro_rules! vec {
    (in $alloc:expr; $item:expr; $count:expr) => {
        Ok::<_, $crate::alloc::AllocError>($crate::vec::Vec::of(std::vec![$item; $count]))
    };
    (in $alloc:expr; $($item:expr),* $(,)?) => {
        Ok::<_, $crate::alloc::AllocError>($crate::vec::Vec::of(std::vec![$($item),*]))
    };
}

/// What the checker proves is not looked at.
#[macro_export]
macro_rules! prove {
    ($holds:expr) => { let _ = $holds; };
}

#[macro_export]
macro_rules! println {
    ($rt:expr; $($word:tt)*) => { $rt.print(std::format_args!($($word)*)) };
}

#[macro_export]
macro_rules! eprintln {
    ($rt:expr; $($word:tt)*) => { $rt.eprint(std::format_args!($($word)*)) };
}

pub mod vec {
    use crate::alloc::{AllocError, Global};

    #[derive(Debug, PartialEq, Eq)]
    pub struct Vec<T> {
        items: std::vec::Vec<T>,
    }

    /// An item that a list had no memory for.
    #[derive(Debug)]
    pub struct Refused<T> {
        pub value: T,
    }

    impl<T> From<Refused<T>> for AllocError {
        fn from(_: Refused<T>) -> AllocError {
            AllocError
        }
    }

    impl<T> Vec<T> {
        #[inline]
        pub fn of(items: std::vec::Vec<T>) -> Vec<T> {
            Vec { items }
        }

        #[inline]
        pub fn into_items(self) -> std::vec::Vec<T> {
            self.items
        }

        #[inline]
        pub fn new(_: Global) -> Vec<T> {
            Vec::of(std::vec::Vec::new())
        }

        #[inline]
        pub fn with_capacity(_: Global, capacity: usize) -> Result<Vec<T>, AllocError> {
            Ok(Vec::of(std::vec::Vec::with_capacity(capacity)))
        }

        #[inline]
        pub fn push(&mut self, item: T) -> Result<(), Refused<T>> {
            self.items.push(item);
            Ok(())
        }

        #[inline]
        pub fn reserve(&mut self, count: usize) -> Result<(), AllocError> {
            self.items.reserve(count);
            Ok(())
        }

        #[inline]
        pub fn insert(&mut self, at: usize, item: T) -> Result<(), AllocError> {
            self.items.insert(at, item);
            Ok(())
        }

        #[inline]
        pub fn split_off(&mut self, at: usize) -> Result<Vec<T>, AllocError> {
            Ok(Vec::of(self.items.split_off(at)))
        }

        #[inline]
        pub fn append(&mut self, other: &mut Vec<T>) -> Result<(), AllocError> {
            self.items.append(&mut other.items);
            Ok(())
        }

        #[inline]
        pub fn as_slice(&self) -> &[T] {
            &self.items
        }

        #[inline]
        pub fn as_mut_slice(&mut self) -> &mut [T] {
            &mut self.items
        }

        #[inline]
        pub fn allocator(&self) -> &Global {
            &Global
        }
    }

    impl<T: Clone> Vec<T> {
        #[inline]
        pub fn clone(&self) -> Result<Vec<T>, AllocError> {
            Ok(Vec::of(self.items.clone()))
        }

        #[inline]
        pub fn extend_from_slice(&mut self, items: &[T]) -> Result<(), AllocError> {
            self.items.extend_from_slice(items);
            Ok(())
        }

        #[inline]
        pub fn resize(&mut self, count: usize, item: T) -> Result<(), AllocError> {
            self.items.resize(count, item);
            Ok(())
        }

        #[inline]
        pub fn from_slice(_: Global, items: &[T]) -> Result<Vec<T>, AllocError> {
            Ok(Vec::of(items.to_vec()))
        }
    }

    impl<T> std::ops::Deref for Vec<T> {
        type Target = std::vec::Vec<T>;
        #[inline]
        fn deref(&self) -> &std::vec::Vec<T> {
            &self.items
        }
    }

    impl<T> std::ops::DerefMut for Vec<T> {
        #[inline]
        fn deref_mut(&mut self) -> &mut std::vec::Vec<T> {
            &mut self.items
        }
    }

    impl<T> IntoIterator for Vec<T> {
        type Item = T;
        type IntoIter = std::vec::IntoIter<T>;
        #[inline]
        fn into_iter(self) -> std::vec::IntoIter<T> {
            self.items.into_iter()
        }
    }

    impl<'a, T> IntoIterator for &'a Vec<T> {
        type Item = &'a T;
        type IntoIter = std::slice::Iter<'a, T>;
        #[inline]
        fn into_iter(self) -> std::slice::Iter<'a, T> {
            self.items.iter()
        }
    }

    impl<'a, T> IntoIterator for &'a mut Vec<T> {
        type Item = &'a mut T;
        type IntoIter = std::slice::IterMut<'a, T>;
        #[inline]
        fn into_iter(self) -> std::slice::IterMut<'a, T> {
            self.items.iter_mut()
        }
    }
}

pub mod slices {
    use crate::alloc::{AllocError, Global};
    use crate::vec::Vec;
    use std::cmp::Ordering;

    /// Methods of Rust's slices and iterators that take memory.
    pub trait Slices<T> {
        fn try_to_vec(&self, alloc: Global) -> Result<Vec<T>, AllocError>
        where
            T: Clone;
        fn try_sort(&mut self) -> Result<(), AllocError>
        where
            T: Ord;
        fn try_sort_by<F: FnMut(&T, &T) -> Ordering>(&mut self, order: F) -> Result<(), AllocError>;
        fn try_sort_by_key<K: Ord, F: FnMut(&T) -> K>(&mut self, key: F) -> Result<(), AllocError>;
    }

    impl<T> Slices<T> for [T] {
        fn try_to_vec(&self, _: Global) -> Result<Vec<T>, AllocError>
        where
            T: Clone,
        {
            Ok(Vec::of(self.to_vec()))
        }

        fn try_sort(&mut self) -> Result<(), AllocError>
        where
            T: Ord,
        {
            self.sort();
            Ok(())
        }

        fn try_sort_by<F: FnMut(&T, &T) -> Ordering>(&mut self, order: F) -> Result<(), AllocError> {
            self.sort_by(order);
            Ok(())
        }

        fn try_sort_by_key<K: Ord, F: FnMut(&T) -> K>(&mut self, key: F) -> Result<(), AllocError> {
            self.sort_by_key(key);
            Ok(())
        }
    }

    pub trait Items: Iterator + Sized {
        fn try_collect(self, _: Global) -> Result<Vec<Self::Item>, AllocError> {
            Ok(Vec::of(self.collect()))
        }
    }

    impl<I: Iterator> Items for I {}
}

pub mod string {
    use crate::alloc::{AllocError, Global};

    #[derive(Debug, PartialEq, Eq)]
    pub struct String {
        text: std::string::String,
    }

    impl String {
        pub fn of(text: std::string::String) -> String {
            String { text }
        }

        pub fn from_str(_: Global, text: &str) -> Result<String, AllocError> {
            Ok(String::of(text.to_string()))
        }

        pub fn as_str(&self) -> &str {
            &self.text
        }
    }

    impl std::ops::Deref for String {
        type Target = str;
        fn deref(&self) -> &str {
            &self.text
        }
    }
}

pub mod collections {
    use crate::alloc::{AllocError, Global};

    pub struct BinaryHeap<T> {
        items: std::collections::BinaryHeap<T>,
    }

    impl<T: Ord> BinaryHeap<T> {
        pub fn new(_: Global) -> BinaryHeap<T> {
            BinaryHeap {
                items: std::collections::BinaryHeap::new(),
            }
        }

        pub fn push(&mut self, item: T) -> Result<(), AllocError> {
            self.items.push(item);
            Ok(())
        }

        pub fn pop(&mut self) -> Option<T> {
            self.items.pop()
        }
    }

    pub struct BTreeSet<T> {
        items: std::collections::BTreeSet<T>,
    }

    impl<T: Ord> BTreeSet<T> {
        pub fn new(_: Global) -> BTreeSet<T> {
            BTreeSet {
                items: std::collections::BTreeSet::new(),
            }
        }

        pub fn insert(&mut self, item: T) -> Result<bool, AllocError> {
            Ok(self.items.insert(item))
        }

        pub fn contains(&self, item: &T) -> bool {
            self.items.contains(item)
        }
    }

    pub struct VecDeque<T> {
        items: std::collections::VecDeque<T>,
    }

    impl<T> VecDeque<T> {
        pub fn from_vec(items: crate::vec::Vec<T>) -> VecDeque<T> {
            VecDeque {
                items: items.into_items().into(),
            }
        }

        pub fn into_vec(self) -> crate::vec::Vec<T> {
            crate::vec::Vec::of(self.items.into())
        }
    }

    impl<T> std::ops::Deref for VecDeque<T> {
        type Target = std::collections::VecDeque<T>;
        fn deref(&self) -> &std::collections::VecDeque<T> {
            &self.items
        }
    }

    impl<T> std::ops::DerefMut for VecDeque<T> {
        fn deref_mut(&mut self) -> &mut std::collections::VecDeque<T> {
            &mut self.items
        }
    }
}

pub mod rt {
    use std::fs::File;
    use std::io::{Read, Result, Write};
    use std::mem::ManuallyDrop;
    use std::os::fd::FromRawFd;

    pub struct HostRuntime;

    /// A stream of the process without a buffer, as Rattle's are.
    pub struct Stream {
        file: ManuallyDrop<File>,
    }

    pub type Stdin = Stream;

    fn stream(number: i32) -> Stream {
        Stream {
            file: ManuallyDrop::new(unsafe { File::from_raw_fd(number) }),
        }
    }

    impl Read for Stream {
        fn read(&mut self, buffer: &mut [u8]) -> Result<usize> {
            self.file.read(buffer)
        }
    }

    impl Write for Stream {
        fn write(&mut self, bytes: &[u8]) -> Result<usize> {
            self.file.write(bytes)
        }

        fn flush(&mut self) -> Result<()> {
            self.file.flush()
        }
    }

    impl crate::alloc::AllocGlobal for HostRuntime {}

    impl crate::env::Env for HostRuntime {}

    impl HostRuntime {
        pub fn alloc(&self) -> crate::alloc::Global {
            crate::alloc::Global
        }

        pub fn stdin(&self) -> Stream {
            stream(0)
        }

        pub fn stdout(&self) -> Stream {
            stream(1)
        }

        pub fn stderr(&self) -> Stream {
            stream(2)
        }
    }

    pub trait Print {
        fn print(&self, text: std::fmt::Arguments<'_>) -> std::io::Result<()>;
    }

    pub trait Eprint {
        fn eprint(&self, text: std::fmt::Arguments<'_>) -> std::io::Result<()>;
    }

    impl Print for HostRuntime {
        fn print(&self, text: std::fmt::Arguments<'_>) -> std::io::Result<()> {
            use std::io::Write;
            writeln!(std::io::stdout(), "{text}")
        }
    }

    impl Eprint for HostRuntime {
        fn eprint(&self, text: std::fmt::Arguments<'_>) -> std::io::Result<()> {
            use std::io::Write;
            writeln!(std::io::stderr(), "{text}")
        }
    }
}

pub mod env {
    use crate::alloc::{AllocError, Global};
    use crate::string::String;
    use crate::vec::Vec;

    pub trait Env {}

    pub struct Args {
        words: std::vec::Vec<String>,
    }

    impl Args {
        pub fn try_collect(self, _: Global) -> Result<Vec<String>, AllocError> {
            Ok(Vec::of(self.words))
        }
    }

    pub fn args<R: Env>(_: &R) -> Result<Args, std::io::Error> {
        let mut words = std::vec::Vec::new();
        for word in std::env::args_os() {
            match word.into_string() {
                Ok(text) => words.push(String::of(text)),
                Err(_) => return Err(std::io::ErrorKind::InvalidData.into()),
            }
        }
        Ok(Args { words })
    }
}

pub mod fs {
    pub use std::fs::File;

    pub fn open<R>(_: &R, name: &str) -> std::io::Result<File> {
        File::open(name)
    }
}

pub mod io {
    pub use std::io::*;
}
