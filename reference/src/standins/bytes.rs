//! Stand-in for the crate `bytes`. A `BytesMut` that broker.rs writes replies into keeps
//! the replies as values (`sent`): what is compared is what was sent, not how it is
//! laid out in bytes.

use std::ops::{Deref, DerefMut};
use std::sync::Arc;

use super::magnetar_proto::Sent;

/// Bytes that are cheap to clone: broker.rs clones whole ledgers.
#[derive(Debug, Clone, Default, PartialEq, Eq)]
pub struct Bytes(Option<Arc<[u8]>>);

impl Bytes {
    pub fn copy_from_slice(bytes: &[u8]) -> Self {
        Bytes(Some(Arc::from(bytes)))
    }
}

impl Deref for Bytes {
    type Target = [u8];
    fn deref(&self) -> &[u8] {
        self.0.as_deref().unwrap_or(&[])
    }
}

#[derive(Debug, Clone, Default)]
pub struct BytesMut {
    bytes: Vec<u8>,
    /// Replies encoded so far, oldest first.
    pub sent: Vec<Sent>,
}

impl BytesMut {
    pub fn new() -> Self {
        Self::default()
    }

    pub fn with_capacity(_capacity: usize) -> Self {
        Self::default()
    }

    pub fn freeze(self) -> Bytes {
        Bytes::copy_from_slice(&self.bytes)
    }

    pub fn split_to(&mut self, at: usize) -> BytesMut {
        let rest = self.bytes.split_off(at);
        BytesMut { bytes: std::mem::replace(&mut self.bytes, rest), sent: Vec::new() }
    }

    pub fn extend_from_slice(&mut self, bytes: &[u8]) {
        self.bytes.extend_from_slice(bytes);
    }

    pub fn clear(&mut self) {
        self.bytes.clear();
        self.sent.clear();
    }
}

impl Deref for BytesMut {
    type Target = [u8];
    fn deref(&self) -> &[u8] {
        &self.bytes
    }
}

impl DerefMut for BytesMut {
    fn deref_mut(&mut self) -> &mut [u8] {
        &mut self.bytes
    }
}

pub trait BufMut {
    fn put_u8(&mut self, value: u8);
    fn put_u32(&mut self, value: u32);
}

impl BufMut for BytesMut {
    fn put_u8(&mut self, value: u8) {
        self.bytes.push(value);
    }

    fn put_u32(&mut self, value: u32) {
        self.bytes.extend_from_slice(&value.to_be_bytes());
    }
}
