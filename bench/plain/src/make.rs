//! The frames of `rehearse`, for every command that makes frames.

use crate::cds::Cds;

pub const FIRST_DAY: u64 = 20_000 * crate::cds::DAY;
pub const ANTENNA: [u8; 1] = [0x41];

pub fn millis(i: u64) -> u64 {
    FIRST_DAY + 10 * i
}

pub fn time(i: u64) -> Cds {
    Cds::of_millis(millis(i))
}

pub fn quality(i: u64) -> u8 {
    (i % 7 == 3) as u8
}

/// The octets of frame `i`, of which there are 256 kinds.
pub fn octets(i: u64, size: usize, into: &mut Vec<u8>) {
    into.clear();
    into.extend((0..size).map(|k| (i as usize + k) as u8));
    for (o, h) in into.iter_mut().zip([0x02, 0xa0 + 2 * (i % 8) as u8]) {
        *o = h;
    }
}

/// All 256 kinds, so that a measurement doesn't count the making of them.
pub struct Pool {
    size: usize,
    octets: Vec<u8>,
}

impl Pool {
    pub fn new(size: usize) -> Pool {
        let mut one = Vec::new();
        let mut octets = Vec::with_capacity(256 * size);
        for i in 0..256 {
            self::octets(i, size, &mut one);
            octets.extend_from_slice(&one);
        }
        Pool { size, octets }
    }

    pub fn frame(&self, i: u64) -> &[u8] {
        let at = (i % 256) as usize * self.size;
        &self.octets[at..at + self.size]
    }
}
