//! Stand-in for `itertools`: the few adaptors that the original files call.

use std::fmt::Display;

pub trait Itertools: Iterator {
    fn collect_vec(self) -> Vec<Self::Item>
    where
        Self: Sized,
    {
        self.collect()
    }

    fn try_collect<T, C, E>(self) -> Result<C, E>
    where
        Self: Sized + Iterator<Item = Result<T, E>>,
        Result<C, E>: FromIterator<Result<T, E>>,
    {
        self.collect()
    }

    fn map_ok<T, U, E, F>(self, change: F) -> MapOk<Self, F>
    where
        Self: Sized + Iterator<Item = Result<T, E>>,
        F: FnMut(T) -> U,
    {
        MapOk { source: self, change }
    }

    fn flatten_ok<T, E>(self) -> FlattenOk<Self, T::IntoIter>
    where
        Self: Sized + Iterator<Item = Result<T, E>>,
        T: IntoIterator,
    {
        FlattenOk { source: self, open: None }
    }

    fn zip_eq<J: IntoIterator>(self, other: J) -> ZipEq<Self, J::IntoIter>
    where
        Self: Sized,
    {
        ZipEq { left: self, right: other.into_iter() }
    }

    fn join(&mut self, between: &str) -> String
    where
        Self::Item: Display,
    {
        let mut text = String::new();
        for (i, item) in self.enumerate() {
            if i > 0 {
                text.push_str(between);
            }
            text.push_str(&item.to_string());
        }
        text
    }
}

impl<I: Iterator + ?Sized> Itertools for I {}

#[derive(Clone)]
pub struct MapOk<I, F> {
    source: I,
    change: F,
}

impl<I, F, T, U, E> Iterator for MapOk<I, F>
where
    I: Iterator<Item = Result<T, E>>,
    F: FnMut(T) -> U,
{
    type Item = Result<U, E>;

    fn next(&mut self) -> Option<Self::Item> {
        self.source.next().map(|item| item.map(&mut self.change))
    }
}

pub struct FlattenOk<I, J> {
    source: I,
    open: Option<J>,
}

impl<I, T, E> Iterator for FlattenOk<I, T::IntoIter>
where
    I: Iterator<Item = Result<T, E>>,
    T: IntoIterator,
{
    type Item = Result<T::Item, E>;

    fn next(&mut self) -> Option<Self::Item> {
        loop {
            if let Some(item) = self.open.as_mut().and_then(|open| open.next()) {
                return Some(Ok(item));
            }
            match self.source.next()? {
                Ok(items) => self.open = Some(items.into_iter()),
                Err(error) => return Some(Err(error)),
            }
        }
    }
}

#[derive(Clone)]
pub struct ZipEq<I, J> {
    left: I,
    right: J,
}

impl<I: Iterator, J: Iterator> Iterator for ZipEq<I, J> {
    type Item = (I::Item, J::Item);

    fn next(&mut self) -> Option<Self::Item> {
        match (self.left.next(), self.right.next()) {
            (Some(left), Some(right)) => Some((left, right)),
            (None, None) => None,
            _ => panic!("zip_eq over different lengths"),
        }
    }
}

/// Walks three sources side by side: the only count that the original uses.
#[macro_export]
macro_rules! izip {
    ($a:expr, $b:expr, $c:expr) => {
        ::std::iter::zip(::std::iter::zip($a, $b), $c).map(|((a, b), c)| (a, b, c))
    };
}
