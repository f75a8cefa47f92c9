//! What the crates use of the port of smallvec.
#![allow(warnings)]
use rattle_std::alloc::{AllocError, Global};

pub enum SmallVec<T, const N: usize> {
    Inline { items: [T; N], used: usize },
    Heap(std::vec::Vec<T>),
}

impl<T: Copy + Default, const N: usize> SmallVec<T, N> {
    #[inline]
    pub fn new(_: Global) -> Self {
        SmallVec::Inline {
            items: [T::default(); N],
            used: 0,
        }
    }

    #[inline]
    pub fn with_capacity(alloc: Global, capacity: usize) -> Result<Self, AllocError> {
        if capacity <= N {
            Ok(SmallVec::new(alloc))
        } else {
            Ok(SmallVec::Heap(std::vec::Vec::with_capacity(capacity)))
        }
    }

    #[inline]
    pub fn from_slice(_: Global, items: &[T]) -> Result<Self, AllocError> {
        if items.len() > N {
            return Ok(SmallVec::Heap(items.to_vec()));
        }
        let mut copy = SmallVec::new(Global);
        for item in items {
            copy.push_reserved(*item);
        }
        Ok(copy)
    }

    #[inline]
    pub fn push_reserved(&mut self, item: T) {
        match self {
            SmallVec::Inline { items, used } => {
                items[*used] = item;
                *used += 1;
            }
            SmallVec::Heap(items) => items.push(item),
        }
    }

    #[inline]
    pub fn as_slice(&self) -> &[T] {
        match self {
            SmallVec::Inline { items, used } => &items[..*used],
            SmallVec::Heap(items) => items,
        }
    }

    #[inline]
    pub fn as_mut_slice(&mut self) -> &mut [T] {
        match self {
            SmallVec::Inline { items, used } => &mut items[..*used],
            SmallVec::Heap(items) => items,
        }
    }

    #[inline]
    pub fn get_mut(&mut self, at: usize) -> Option<&mut T> {
        self.as_mut_slice().get_mut(at)
    }

    #[inline]
    pub fn len(&self) -> usize {
        self.as_slice().len()
    }

    #[inline]
    pub fn allocator(&self) -> &Global {
        &Global
    }
}

impl<T: Copy + Default, const N: usize> std::ops::Deref for SmallVec<T, N> {
    type Target = [T];
    #[inline]
    fn deref(&self) -> &[T] {
        self.as_slice()
    }
}

impl<T: Copy + Default, const N: usize> std::ops::DerefMut for SmallVec<T, N> {
    #[inline]
    fn deref_mut(&mut self) -> &mut [T] {
        self.as_mut_slice()
    }
}
