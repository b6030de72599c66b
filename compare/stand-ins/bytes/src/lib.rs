//! Stand-in for `bytes`: a record's bytes, and a buffer to write into.

/// A record as the engine sees it: a length, and the caller's number for the
/// bytes themselves. The compared code never looks inside a record.
#[derive(Clone, Copy, Debug, PartialEq, Eq)]
pub struct Bytes {
    length: usize,
    number: u32,
}

impl Bytes {
    pub const fn new(length: usize, number: u32) -> Self {
        Self { length, number }
    }

    pub const fn len(&self) -> usize {
        self.length
    }

    pub const fn is_empty(&self) -> bool {
        self.length == 0
    }

    /// The caller's number for these bytes.
    pub const fn number(&self) -> u32 {
        self.number
    }
}

/// A buffer that takes bytes at its end.
pub trait BufMut {
    fn put_slice(&mut self, bytes: &[u8]);

    fn put_u8(&mut self, n: u8) {
        self.put_slice(&[n]);
    }

    fn put_u64(&mut self, n: u64) {
        self.put_slice(&n.to_be_bytes());
    }
}

impl BufMut for Vec<u8> {
    fn put_slice(&mut self, bytes: &[u8]) {
        self.extend_from_slice(bytes);
    }
}
