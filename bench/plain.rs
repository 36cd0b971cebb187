//! The calls that workloads make on a byte string: those of a plain vector, and of hipstr in Rust.
use std::ops::Range;

/// A byte string. `'a` is how long the bytes live that it may lend.
pub trait Bytes<'a>: Sized + Clone + Default + Ord + std::hash::Hash {
    fn copied(bytes: &[u8]) -> Self;
    fn lent(bytes: &'a [u8]) -> Self;
    fn with_room(room: usize) -> Self;
    fn bytes(&self) -> &[u8];
    fn part(&self, range: Range<usize>) -> Self;
    fn owned(bytes: &'a [u8]) -> Self;
    fn writable(&mut self) -> &mut [u8];
    fn extend_within_vector(&mut self, bytes: &[u8], limit: usize, back: usize);
    fn push(&mut self, byte: u8);
    fn push_slice(&mut self, bytes: &[u8]);
    fn pop(&mut self) -> Option<u8>;
    fn truncate(&mut self, len: usize);
    fn repeat(&self, times: usize) -> Self;
    fn concat(parts: &[&[u8]]) -> Self;
    fn concat_each(parts: &[&[u8]]) -> Self;
    fn join(parts: &[&[u8]], separator: &[u8]) -> Self;
    fn join_each(parts: &[&[u8]], separator: &[u8]) -> Self;
}

impl<'a> Bytes<'a> for Vec<u8> {
    fn copied(bytes: &[u8]) -> Self {
        bytes.to_vec()
    }
    fn lent(bytes: &'a [u8]) -> Self {
        bytes.to_vec()
    }
    fn with_room(room: usize) -> Self {
        Vec::with_capacity(room)
    }
    fn bytes(&self) -> &[u8] {
        self
    }
    fn part(&self, range: Range<usize>) -> Self {
        self[range].to_vec()
    }
    fn owned(bytes: &'a [u8]) -> Self {
        bytes.to_vec()
    }
    fn writable(&mut self) -> &mut [u8] {
        self
    }
    fn extend_within_vector(&mut self, bytes: &[u8], limit: usize, back: usize) {
        self.extend_from_slice(bytes);
        if self.len() > limit {
            self.truncate(back);
        }
    }
    fn push(&mut self, byte: u8) {
        Vec::push(self, byte);
    }
    fn push_slice(&mut self, bytes: &[u8]) {
        self.extend_from_slice(bytes);
    }
    fn pop(&mut self) -> Option<u8> {
        Vec::pop(self)
    }
    fn truncate(&mut self, len: usize) {
        Vec::truncate(self, len);
    }
    fn repeat(&self, times: usize) -> Self {
        self[..].repeat(times)
    }
    fn concat(parts: &[&[u8]]) -> Self {
        parts.concat()
    }
    fn concat_each(parts: &[&[u8]]) -> Self {
        parts.iter().copied().flatten().copied().collect()
    }
    fn join(parts: &[&[u8]], separator: &[u8]) -> Self {
        parts.join(separator)
    }
    fn join_each(parts: &[&[u8]], separator: &[u8]) -> Self {
        let mut made = Vec::new();
        for (place, part) in parts.iter().enumerate() {
            made.extend_from_slice(if place == 0 { &[] } else { separator });
            made.extend_from_slice(part);
        }
        made
    }
}

#[cfg(hipstr)]
impl<'a, B: hipstr::Backend> Bytes<'a> for hipstr::bytes::HipByt<'a, B> {
    fn copied(bytes: &[u8]) -> Self {
        Self::from(bytes)
    }
    fn lent(bytes: &'a [u8]) -> Self {
        Self::borrowed(bytes)
    }
    fn with_room(room: usize) -> Self {
        Self::with_capacity(room)
    }
    fn bytes(&self) -> &[u8] {
        self.as_slice()
    }
    fn part(&self, range: Range<usize>) -> Self {
        self.slice(range)
    }
    fn owned(bytes: &'a [u8]) -> Self {
        Self::borrowed(bytes).into_owned()
    }
    fn writable(&mut self) -> &mut [u8] {
        self.to_mut_slice()
    }
    fn extend_within_vector(&mut self, bytes: &[u8], limit: usize, back: usize) {
        let mut vec = self.mutate();
        vec.extend_from_slice(bytes);
        if vec.len() > limit {
            vec.truncate(back);
        }
    }
    fn push(&mut self, byte: u8) {
        self.push(byte);
    }
    fn push_slice(&mut self, bytes: &[u8]) {
        self.push_slice(bytes);
    }
    fn pop(&mut self) -> Option<u8> {
        self.pop()
    }
    fn truncate(&mut self, len: usize) {
        self.truncate(len);
    }
    fn repeat(&self, times: usize) -> Self {
        self.repeat(times)
    }
    fn concat(parts: &[&[u8]]) -> Self {
        Self::concat_slices(parts)
    }
    fn concat_each(parts: &[&[u8]]) -> Self {
        Self::concat(parts.iter().copied())
    }
    fn join(parts: &[&[u8]], separator: &[u8]) -> Self {
        Self::join_slices(parts, separator)
    }
    fn join_each(parts: &[&[u8]], separator: &[u8]) -> Self {
        Self::join(parts.iter().copied(), separator)
    }
}
