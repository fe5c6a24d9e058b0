//! Records of a session: length 4 (of kind and payload), kind 2, payload; all little-endian.

/// A record is refused, and the session ends.
pub struct Bad(pub u8);

pub struct Input<'a> {
    rest: &'a [u8],
    /// of the record handed out last, from 1
    pub number: u64,
}

pub type Record<'a> = (u16, Fields<'a>);

impl<'a> Input<'a> {
    pub fn new(rest: &'a [u8]) -> Self {
        Input { rest, number: 0 }
    }

    /// The next record, well made; none at the end of the input.
    pub fn next(&mut self) -> Result<Option<Record<'a>>, Bad> {
        if self.rest.is_empty() {
            return Ok(None);
        }
        self.number += 1;
        if self.rest.len() < 4 {
            return Err(Bad(17));
        }
        let (length, rest) = self.rest.split_at(4);
        let n = Fields(length).u32() as usize;
        if n < 2 || rest.len() < n {
            return Err(Bad(17));
        }
        let mut record = Fields(&rest[..n]);
        self.rest = &rest[n..];
        let kind = record.u16();
        if self.in_place(kind) && well_made(kind, record.0) { Ok(Some((kind, record))) } else { Err(Bad(17)) }
    }

    /// One of the first two records, which must be there.
    pub fn first(&mut self) -> Result<Fields<'a>, Bad> {
        match self.next()? {
            Some((_, fields)) => Ok(fields),
            None => {
                self.number += 1;
                Err(Bad(17))
            }
        }
    }

    fn in_place(&self, kind: u16) -> bool {
        match self.number {
            1 => kind == 1,
            2 => kind == 3,
            _ => kind != 1 && kind != 3,
        }
    }
}

/// What is left of a payload.
#[derive(Clone, Copy)]
pub struct Fields<'a>(pub &'a [u8]);

impl<'a> Fields<'a> {
    pub fn bytes(&mut self, n: usize) -> &'a [u8] {
        let (a, b) = self.0.split_at(n);
        self.0 = b;
        a
    }
    fn array<const N: usize>(&mut self) -> [u8; N] {
        self.bytes(N).try_into().unwrap()
    }
    pub fn u8(&mut self) -> u8 {
        self.bytes(1)[0]
    }
    pub fn flag(&mut self) -> bool {
        self.u8() == 1
    }
    pub fn u16(&mut self) -> u16 {
        u16::from_le_bytes(self.array())
    }
    pub fn u32(&mut self) -> u32 {
        u32::from_le_bytes(self.array())
    }
    pub fn u64(&mut self) -> u64 {
        u64::from_le_bytes(self.array())
    }
}

fn anchor_well_made(p: &[u8]) -> bool {
    p.len() >= 50 && p.len() == 50 + 33 * Fields(&p[48..]).u16() as usize
}

/// Length, flags 0 or 1, partitions at most 7, do bytes and functions.
fn well_made(kind: u16, p: &[u8]) -> bool {
    let n = p.len();
    match kind {
        1 => n == 12,
        2 => n == 34,
        3 => n == 34 && p[17] <= 1,
        4 | 0x107 => anchor_well_made(p),
        5 => n == 1 && (1..=7).contains(&p[0]),
        0x101 => n == 153 && p[48] <= 1 && (0..8).all(|i| p[49 + 13 * i] <= 1),
        0x102 => n == 18 && p[0] <= 7 && p[1] <= 1,
        0x103 => n == 10 && p[0] <= 1 && p[1] <= 1,
        0x104 => n == 4,
        0x105 => n == 16,
        0x106 | 0x117 => n == 52,
        0x108 => n == 4 && Fields(p).u32() <= 33_792,
        0x110 | 0x114 => n == 8,
        0x111 => n == 5 && p[4] <= 1,
        0x112 => n == 9 && p[4] <= 7,
        0x113 => n == 3 && (1..=22).contains(&p[0]) && p[1] <= 7 && p[2] <= 1,
        0x115 => n == 12,
        0x116 => n == 0,
        _ => false,
    }
}
