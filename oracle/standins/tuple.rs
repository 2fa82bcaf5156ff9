// Stands in for access/tuple.rs: the names that the scan's transformations mention. No call
// that is compared goes through them.

use std::marker::PhantomData;

pub struct Tuple;

pub struct TupleParser;

impl TupleParser {
    pub fn parse(&self, _record: &[u8]) -> Tuple {
        Tuple
    }
}

pub struct MutatingTupleParser<'a, V> {
    values: PhantomData<&'a V>,
}

impl<V> MutatingTupleParser<'_, V> {
    pub fn parse(&self, _record: &[u8]) {}
}
