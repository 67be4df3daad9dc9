//! The three adaptors that the originals use.

use std::fmt::Display;

pub trait Itertools: Iterator {
    fn collect_vec(self) -> Vec<Self::Item>
    where
        Self: Sized,
    {
        self.collect()
    }

    fn join(&mut self, separator: &str) -> String
    where
        Self::Item: Display,
    {
        let parts: Vec<String> = self.map(|x| x.to_string()).collect();
        parts.join(separator)
    }

    /// Every pair, the left one changing slowest.
    fn cartesian_product<J>(self, other: J) -> Product<Self, J::IntoIter>
    where
        Self: Sized,
        Self::Item: Clone,
        J: IntoIterator,
        J::IntoIter: Clone,
    {
        let all = other.into_iter();
        Product { left: self, current: None, right: all.clone(), all }
    }
}

impl<I: Iterator + ?Sized> Itertools for I {}

#[derive(Clone)]
pub struct Product<I: Iterator, J> {
    left: I,
    current: Option<I::Item>,
    right: J,
    all: J,
}

impl<I, J> Iterator for Product<I, J>
where
    I: Iterator,
    I::Item: Clone,
    J: Iterator + Clone,
{
    type Item = (I::Item, J::Item);

    fn next(&mut self) -> Option<Self::Item> {
        loop {
            if let Some(left) = &self.current {
                if let Some(right) = self.right.next() {
                    return Some((left.clone(), right));
                }
            }
            self.current = Some(self.left.next()?);
            self.right = self.all.clone();
        }
    }
}
