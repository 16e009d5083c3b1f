//! Reading the standard types.

use std::borrow::Cow;
use std::collections::{BTreeSet, HashMap};
use std::hash::Hash;

use crate::{Deserialize, Deserializer};

impl Deserialize for bool {
    fn deserialize<D: Deserializer>(source: &mut D) -> Result<Self, D::Error> {
        source.read_bool()
    }
}

impl Deserialize for i64 {
    fn deserialize<D: Deserializer>(source: &mut D) -> Result<Self, D::Error> {
        source.read_i64()
    }
}

impl Deserialize for usize {
    fn deserialize<D: Deserializer>(source: &mut D) -> Result<Self, D::Error> {
        Ok(source.read_u64()? as usize)
    }
}

impl Deserialize for f64 {
    fn deserialize<D: Deserializer>(source: &mut D) -> Result<Self, D::Error> {
        source.read_f64()
    }
}

impl Deserialize for String {
    fn deserialize<D: Deserializer>(source: &mut D) -> Result<Self, D::Error> {
        source.read_string()
    }
}

impl<T: Deserialize> Deserialize for Box<T> {
    fn deserialize<D: Deserializer>(source: &mut D) -> Result<Self, D::Error> {
        Ok(Box::new(T::deserialize(source)?))
    }
}

impl<T: ToOwned + ?Sized> Deserialize for Cow<'_, T>
where
    T::Owned: Deserialize,
{
    fn deserialize<D: Deserializer>(source: &mut D) -> Result<Self, D::Error> {
        Ok(Cow::Owned(T::Owned::deserialize(source)?))
    }
}

impl<T: Deserialize> Deserialize for Option<T> {
    fn deserialize<D: Deserializer>(source: &mut D) -> Result<Self, D::Error> {
        match source.read_variant()? {
            0 => Ok(None),
            1 => Ok(Some(T::deserialize(source)?)),
            number => Err(source.unknown_variant(number)),
        }
    }
}

impl<A: Deserialize, B: Deserialize> Deserialize for (A, B) {
    fn deserialize<D: Deserializer>(source: &mut D) -> Result<Self, D::Error> {
        Ok((A::deserialize(source)?, B::deserialize(source)?))
    }
}

impl<T: Deserialize> Deserialize for Vec<T> {
    fn deserialize<D: Deserializer>(source: &mut D) -> Result<Self, D::Error> {
        (0..source.read_count()?).map(|_| T::deserialize(source)).collect()
    }
}

impl<T: Deserialize + Ord> Deserialize for BTreeSet<T> {
    fn deserialize<D: Deserializer>(source: &mut D) -> Result<Self, D::Error> {
        (0..source.read_count()?).map(|_| T::deserialize(source)).collect()
    }
}

impl<K: Deserialize + Eq + Hash, V: Deserialize> Deserialize for HashMap<K, V> {
    fn deserialize<D: Deserializer>(source: &mut D) -> Result<Self, D::Error> {
        (0..source.read_count()?)
            .map(|_| Ok((K::deserialize(source)?, V::deserialize(source)?)))
            .collect()
    }
}
