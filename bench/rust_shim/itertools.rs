//! What the crates use of the port of itertools: choices of as many items, in the order of places.
#![allow(warnings)]
use rattle_std::alloc::{AllocError, Global};
use rattle_std::vec::Vec;

pub struct Combinations<T, A> {
    pool: std::vec::Vec<T>,
    places: Option<std::vec::Vec<usize>>,
    alloc: A,
}

pub trait Itertools: Iterator + Sized {
    fn combinations(self, alloc: Global, size: usize) -> Result<Combinations<Self::Item, Global>, AllocError> {
        let pool: std::vec::Vec<Self::Item> = self.collect();
        let places = (size <= pool.len()).then(|| (0..size).collect());
        Ok(Combinations {
            pool,
            places,
            alloc,
        })
    }
}

impl<I: Iterator> Itertools for I {}

// The places after these, of so many.
fn next_places(mut places: std::vec::Vec<usize>, count: usize) -> Option<std::vec::Vec<usize>> {
    let size = places.len();
    let moved = (0..size).rev().find(|k| places[*k] + size < count + *k)?;
    places[moved] += 1;
    for k in moved + 1..size {
        places[k] = places[k - 1] + 1;
    }
    Some(places)
}

impl<T: Clone, A> Iterator for Combinations<T, A> {
    type Item = Result<Vec<T>, AllocError>;

    fn next(&mut self) -> Option<Self::Item> {
        let places = self.places.take()?;
        let chosen = places.iter().map(|k| self.pool[*k].clone()).collect();
        self.places = next_places(places, self.pool.len());
        Some(Ok(Vec::of(chosen)))
    }
}
