//! The frames of a vector file.

/// The longest payload that `replay` takes.
const LONGEST: usize = 8192;

/// The one pattern that stands for every NaN.
const NAN_BITS: u64 = 0x7FF8_0000_0000_0000;

/// The vectors of one file.
pub struct Vectors {
    kind: u8,
    bytes: Vec<u8>,
    count: usize,
    longest: usize,
}

/// The fields of one vector.
#[derive(Default)]
pub struct Fields {
    bytes: Vec<u8>,
}

impl Fields {
    pub fn new() -> Self {
        Self::default()
    }

    pub fn number(mut self, n: u64) -> Self {
        self.bytes.extend(n.to_be_bytes());
        self
    }

    pub fn size(self, n: usize) -> Self {
        self.number(n as u64)
    }

    pub fn double(self, v: f64) -> Self {
        self.number(if v.is_nan() { NAN_BITS } else { v.to_bits() })
    }

    pub fn doubles(mut self, vs: &[f64]) -> Self {
        for &v in vs {
            self = self.double(v);
        }
        self
    }

    pub fn string(mut self, s: &[u8]) -> Self {
        self = self.size(s.len());
        self.bytes.extend(s);
        self
    }

    /// A short number: how many bytes it has, then those bytes.
    pub fn short(mut self, n: u64) -> Self {
        let zeros = n.leading_zeros() as usize / 8;
        self.bytes.push(8 - zeros as u8);
        self.bytes.extend(&n.to_be_bytes()[zeros..]);
        self
    }

    /// A short signed number: twice it, or twice its distance from -1 and one more where it is negative.
    pub fn short_signed(self, n: i64) -> Self {
        self.short(((n << 1) ^ (n >> 63)) as u64)
    }

    pub fn short_double(self, v: f64) -> Self {
        self.short(if v.is_nan() { NAN_BITS } else { v.to_bits() })
    }

    pub fn short_string(mut self, s: &[u8]) -> Self {
        self = self.short(s.len() as u64);
        self.bytes.extend(s);
        self
    }
}

impl Vectors {
    pub fn new(kind: u8) -> Self {
        Self {
            kind,
            bytes: Vec::new(),
            count: 0,
            longest: 0,
        }
    }

    pub fn add(&mut self, fields: Fields) {
        let length = 1 + fields.bytes.len();
        assert!(length <= LONGEST, "a vector of {length} bytes is too long");
        self.bytes.extend((length as u32).to_be_bytes());
        self.bytes.push(self.kind);
        self.bytes.extend(fields.bytes);
        self.count += 1;
        self.longest = self.longest.max(length);
    }

    pub fn bytes(&self) -> &[u8] {
        &self.bytes
    }

    pub fn count(&self) -> usize {
        self.count
    }

    pub fn longest(&self) -> usize {
        self.longest
    }
}
