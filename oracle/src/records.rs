//! Records of a session (document 01) and question 17 about them.

use crate::beyond;
use crate::collator::messages_reader::externals_reader::hook::Settings;
use crate::questions::Number;

pub struct Input<'a> {
    rest: &'a [u8],
    /// number of the record handed out last, from 1
    pub number: u64,
}

pub struct Raw<'a> {
    pub kind: u16,
    pub payload: &'a [u8],
}

impl<'a> Input<'a> {
    pub fn new(bytes: &'a [u8]) -> Self {
        Self { rest: bytes, number: 0 }
    }

    /// `Ok(None)` at the end of the input, `Err` where it ends inside a record
    /// or the length does not even cover the kind.
    pub fn next(&mut self) -> Result<Option<Raw<'a>>, Number> {
        if self.rest.is_empty() {
            return Ok(None);
        }
        self.number += 1;
        let Some((len, rest)) = self.rest.split_first_chunk::<4>() else {
            return Err(17);
        };
        let len = u32::from_le_bytes(*len) as usize;
        if len < 2 || rest.len() < len {
            return Err(17);
        }
        let (record, rest) = rest.split_at(len);
        self.rest = rest;
        Ok(Some(Raw { kind: u16::from_le_bytes([record[0], record[1]]), payload: &record[2..] }))
    }

    /// One of the two records with which a session begins.
    pub fn first(&mut self) -> Result<Record, Number> {
        match self.next()? {
            None => {
                self.number += 1;
                Err(17)
            }
            Some(raw) => parse(&raw, self.number, false),
        }
    }
}

/// Little-endian numbers, one after another.
pub struct Fields<'a>(pub &'a [u8]);

impl Fields<'_> {
    pub fn take<const N: usize>(&mut self) -> [u8; N] {
        let (a, b) = self.0.split_first_chunk::<N>().expect("length was asked before");
        self.0 = b;
        *a
    }
    pub fn u8(&mut self) -> u8 {
        self.take::<1>()[0]
    }
    pub fn u16(&mut self) -> u16 {
        u16::from_le_bytes(self.take())
    }
    pub fn u32(&mut self) -> u32 {
        u32::from_le_bytes(self.take())
    }
    pub fn u64(&mut self) -> u64 {
        u64::from_le_bytes(self.take())
    }
    pub fn key(&mut self) -> (u32, u64) {
        (self.u32(), self.u64())
    }
    /// FFFF for no limit.
    pub fn limits(&mut self) -> [Option<u16>; 8] {
        std::array::from_fn(|_| match self.u16() {
            0xFFFF => None,
            limit => Some(limit),
        })
    }
}

/// A message as a record has it: workchain and account.
pub type Message = (i8, [u8; 32]);

pub struct Anchor {
    pub id: u32,
    pub chain_time: u64,
    pub author: [u8; 32],
    pub ours: u32,
    pub messages: Vec<Message>,
}

pub enum Record {
    Shard {
        workchain: i32,
        prefix: u64,
    },
    Route {
        workchain: i8,
        account: [u8; 32],
        partition: u8,
    },
    Settings(Settings),
    Anchor(Anchor),
    Do(u8),
    /// only with `-x`
    Beyond {
        kind: u16,
        payload: Vec<u8>,
    },
}

/// Question 17: kind, length, place, flag and do byte.
pub fn parse(raw: &Raw<'_>, number: u64, with_beyond: bool) -> Result<Record, Number> {
    if with_beyond && number > 2 && raw.kind >= 0x100 {
        beyond::well_made(raw.kind, raw.payload).then_some(()).ok_or(17)?;
        return Ok(Record::Beyond { kind: raw.kind, payload: raw.payload.to_vec() });
    }
    let in_place = match number {
        1 => raw.kind == 1,
        2 => raw.kind == 3,
        _ => matches!(raw.kind, 2 | 4 | 5),
    };
    if !in_place || !well_made(raw.kind, raw.payload) {
        return Err(17);
    }
    let mut f = Fields(raw.payload);
    Ok(match raw.kind {
        1 => Record::Shard { workchain: f.u32() as i32, prefix: f.u64() },
        2 => Record::Route { workchain: f.u8() as i8, account: f.take(), partition: f.u8() },
        3 => Record::Settings(Settings {
            next_chain_time: f.u64(),
            timeout: f.u32(),
            block_seqno: f.u32(),
            open_ranges_limit: f.u8(),
            new_waiting: f.u8() == 1,
            limits: f.limits(),
        }),
        4 => Record::Anchor(anchor(raw.payload)),
        _ => Record::Do(f.u8()),
    })
}

fn well_made(kind: u16, payload: &[u8]) -> bool {
    let n = payload.len();
    match kind {
        1 => n == 12,
        2 => n == 34,
        3 => n == 34 && payload[17] <= 1,
        4 => anchor_well_made(payload),
        5 => n == 1 && (1..=7).contains(&payload[0]),
        _ => false,
    }
}

pub fn anchor_well_made(payload: &[u8]) -> bool {
    let n = payload.len();
    n >= 50 && n == 50 + 33 * u16::from_le_bytes([payload[48], payload[49]]) as usize
}

/// The payload of 0004, well made.
pub fn anchor(payload: &[u8]) -> Anchor {
    let mut f = Fields(payload);
    let (id, chain_time, author, ours) = (f.u32(), f.u64(), f.take(), f.u32());
    let count = f.u16();
    let messages = (0..count).map(|_| (f.u8() as i8, f.take())).collect();
    Anchor { id, chain_time, author, ours, messages }
}
