//! The kinds of peers and keys that a script can name.
//!
//! Peers are station numbers or public keys, keys are seats or digests, and
//! subscribers are of the peers' kind. A form is the big-endian bytes that the
//! links write; order goes field by field or byte by byte.

use bytes::BufMut;
use commonware_codec::{Buf, EncodeSize, Error, Read, Write};
use std::{
    fmt::{self, Debug, Display, Formatter},
    hash::Hash,
};

/// What every kind can do: be read from a script, be printed into a trace, and
/// give its form.
pub trait Kind: Copy + Ord + Hash + Debug + Display + Send + Sync + 'static {
    /// What to expect in a script, for an error.
    const NAME: &'static str;

    /// The number of bytes of every form.
    const WIDTH: usize;

    fn parse(word: &str) -> Option<Self>;

    fn form(&self) -> Vec<u8>;

    /// The value of this kind that the generator calls number `n`; a greater `n`
    /// gives a greater value.
    fn nth(n: u32) -> Self;
}

pub trait PeerKind: Kind + commonware_cryptography::PublicKey {
    /// The station number that a lane is for, if peers of this kind have one.
    fn station(&self) -> Option<u32>;
}

pub trait KeyKind: Kind + commonware_utils::Span {
    /// The performance that the key belongs to, if keys of this kind have one.
    fn performance(&self) -> Option<u32>;

    /// Whether keys of this kind belong to performances.
    const HAS_PERFORMANCE: bool;

    fn from_form(form: &[u8]) -> Option<Self>;
}

/// A number of decimal digits, and nothing else.
pub fn decimal<T: std::str::FromStr>(word: &str) -> Option<T> {
    let digits = !word.is_empty() && word.bytes().all(|byte| byte.is_ascii_digit());
    digits.then(|| word.parse().ok()).flatten()
}

/// 64 hexadecimal digits.
fn hexadecimal(word: &str) -> Option<[u8; 32]> {
    if word.len() != 64 || !word.bytes().all(|byte| byte.is_ascii_hexdigit()) {
        return None;
    }
    let mut bytes = [0; 32];
    for (place, byte) in bytes.iter_mut().enumerate() {
        *byte = u8::from_str_radix(&word[2 * place..2 * place + 2], 16).ok()?;
    }
    Some(bytes)
}

pub fn write_hex(f: &mut impl fmt::Write, bytes: &[u8]) -> fmt::Result {
    bytes.iter().try_for_each(|byte| write!(f, "{byte:02x}"))
}

/// 32 bytes of which the second and the last carry the number, so that values
/// differ early and late and sort by the number.
fn spread(n: u32) -> [u8; 32] {
    let mut bytes = [0x5a; 32];
    bytes[1..5].copy_from_slice(&n.to_be_bytes());
    bytes[31] = n as u8;
    bytes
}

#[derive(Clone, Copy, Debug, PartialEq, Eq, PartialOrd, Ord, Hash)]
pub struct Station(pub u32);

impl Display for Station {
    fn fmt(&self, f: &mut Formatter<'_>) -> fmt::Result {
        write!(f, "{}", self.0)
    }
}

impl Kind for Station {
    const NAME: &'static str = "a station number";
    const WIDTH: usize = 4;

    fn parse(word: &str) -> Option<Self> {
        decimal(word).map(Self)
    }

    fn form(&self) -> Vec<u8> {
        self.0.to_be_bytes().to_vec()
    }

    fn nth(n: u32) -> Self {
        Self(n)
    }
}

impl commonware_cryptography::PublicKey for Station {}

impl PeerKind for Station {
    fn station(&self) -> Option<u32> {
        Some(self.0)
    }
}

#[derive(Clone, Copy, Debug, PartialEq, Eq, PartialOrd, Ord, Hash)]
pub struct PublicKey(pub [u8; 32]);

impl Display for PublicKey {
    fn fmt(&self, f: &mut Formatter<'_>) -> fmt::Result {
        write_hex(f, &self.0)
    }
}

impl Kind for PublicKey {
    const NAME: &'static str = "a public key of 64 hexadecimal digits";
    const WIDTH: usize = 32;

    fn parse(word: &str) -> Option<Self> {
        hexadecimal(word).map(Self)
    }

    fn form(&self) -> Vec<u8> {
        self.0.to_vec()
    }

    fn nth(n: u32) -> Self {
        Self(spread(n))
    }
}

impl commonware_cryptography::PublicKey for PublicKey {}

impl PeerKind for PublicKey {
    fn station(&self) -> Option<u32> {
        None
    }
}

#[derive(Clone, Copy, Debug, PartialEq, Eq, PartialOrd, Ord, Hash)]
pub struct Seat {
    pub performance: u32,
    pub seat: u16,
}

impl Display for Seat {
    fn fmt(&self, f: &mut Formatter<'_>) -> fmt::Result {
        write!(f, "{}:{}", self.performance, self.seat)
    }
}

impl Kind for Seat {
    const NAME: &'static str = "a key performance:seat";
    const WIDTH: usize = 6;

    fn parse(word: &str) -> Option<Self> {
        let (performance, seat) = word.split_once(':')?;
        Some(Self {
            performance: decimal(performance)?,
            seat: decimal(seat)?,
        })
    }

    fn form(&self) -> Vec<u8> {
        let mut form = self.performance.to_be_bytes().to_vec();
        form.extend(self.seat.to_be_bytes());
        form
    }

    fn nth(n: u32) -> Self {
        Self {
            performance: 1 + n / 4,
            seat: (n % 4) as u16,
        }
    }
}

impl KeyKind for Seat {
    const HAS_PERFORMANCE: bool = true;

    fn performance(&self) -> Option<u32> {
        Some(self.performance)
    }

    fn from_form(form: &[u8]) -> Option<Self> {
        let form: [u8; 6] = form.try_into().ok()?;
        Some(Self {
            performance: u32::from_be_bytes(form[..4].try_into().unwrap()),
            seat: u16::from_be_bytes(form[4..].try_into().unwrap()),
        })
    }
}

#[derive(Clone, Copy, Debug, PartialEq, Eq, PartialOrd, Ord, Hash)]
pub struct Digest(pub [u8; 32]);

impl Display for Digest {
    fn fmt(&self, f: &mut Formatter<'_>) -> fmt::Result {
        write_hex(f, &self.0)
    }
}

impl Kind for Digest {
    const NAME: &'static str = "a digest of 64 hexadecimal digits";
    const WIDTH: usize = 32;

    fn parse(word: &str) -> Option<Self> {
        hexadecimal(word).map(Self)
    }

    fn form(&self) -> Vec<u8> {
        self.0.to_vec()
    }

    fn nth(n: u32) -> Self {
        Self(spread(n))
    }
}

impl KeyKind for Digest {
    const HAS_PERFORMANCE: bool = false;

    fn performance(&self) -> Option<u32> {
        None
    }

    fn from_form(form: &[u8]) -> Option<Self> {
        form.try_into().ok().map(Self)
    }
}

/// What the reference asks of a key: to be written into a request.
macro_rules! span {
    ($key:ty) => {
        impl commonware_utils::Span for $key {}

        impl Write for $key {
            fn write(&self, buf: &mut impl BufMut) {
                buf.put_slice(&self.form());
            }
        }

        impl EncodeSize for $key {
            fn encode_size(&self) -> usize {
                Self::WIDTH
            }
        }

        impl Read for $key {
            type Cfg = ();

            fn read_cfg(buf: &mut impl Buf, _: &()) -> Result<Self, Error> {
                let form = buf.take(Self::WIDTH).ok_or(Error::EndOfBuffer)?;
                Self::from_form(&form).ok_or(Error::Invalid("key", "width"))
            }
        }
    };
}

span!(Seat);
span!(Digest);
