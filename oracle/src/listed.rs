//! What calls give, as the fixed list takes it: numbers, outputs, and a tag list that is changed.

use crate::report::Hex;

/// What a call is to give beside its result: the numbers that come out, the outputs after it, and the tag list after it, if it changes one.
pub trait Listed {
    fn numbers(&self) -> Vec<u64>;
    fn outputs(&self) -> Vec<&[u8]>;
    fn tags(&self) -> Option<&[u8]> {
        None
    }
}

/// A tag list after a call.
#[derive(PartialEq, Eq, Debug)]
pub struct TagList<'a>(pub Hex<'a>);

impl<const COUNT: usize> Listed for [u64; COUNT] {
    fn numbers(&self) -> Vec<u64> {
        self.to_vec()
    }
    fn outputs(&self) -> Vec<&[u8]> {
        Vec::new()
    }
}

impl Listed for Hex<'_> {
    fn numbers(&self) -> Vec<u64> {
        Vec::new()
    }
    fn outputs(&self) -> Vec<&[u8]> {
        vec![self.0]
    }
}

impl Listed for (Hex<'_>, u64) {
    fn numbers(&self) -> Vec<u64> {
        vec![self.1]
    }
    fn outputs(&self) -> Vec<&[u8]> {
        vec![self.0 .0]
    }
}

impl<const COUNT: usize> Listed for ([u64; COUNT], Hex<'_>) {
    fn numbers(&self) -> Vec<u64> {
        self.0.to_vec()
    }
    fn outputs(&self) -> Vec<&[u8]> {
        vec![self.1 .0]
    }
}

impl<const COUNT: usize> Listed for ([Hex<'_>; 3], [u64; COUNT]) {
    fn numbers(&self) -> Vec<u64> {
        self.1.to_vec()
    }
    fn outputs(&self) -> Vec<&[u8]> {
        self.0.iter().map(|output| output.0).collect()
    }
}

impl Listed for TagList<'_> {
    fn numbers(&self) -> Vec<u64> {
        Vec::new()
    }
    fn outputs(&self) -> Vec<&[u8]> {
        Vec::new()
    }
    fn tags(&self) -> Option<&[u8]> {
        Some(self.0 .0)
    }
}

impl<const COUNT: usize> Listed for (TagList<'_>, Hex<'_>, [u64; COUNT]) {
    fn numbers(&self) -> Vec<u64> {
        self.2.to_vec()
    }
    fn outputs(&self) -> Vec<&[u8]> {
        vec![self.1 .0]
    }
    fn tags(&self) -> Option<&[u8]> {
        self.0.tags()
    }
}
