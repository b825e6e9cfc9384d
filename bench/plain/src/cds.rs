//! CDS times (CCSDS 301.0-B, section 3.3) and the moments that they name.

#[derive(Clone, Copy, Debug, PartialEq, Eq)]
pub enum Rest {
    Micros(u16),
    Picos(u32),
}

#[derive(Clone, Copy, Debug, PartialEq, Eq)]
pub struct Cds {
    pub days: u16,
    pub millis: u32,
    pub rest: Rest,
}

pub const DAY: u64 = 86_400_000;

/// Orders as the spec's moment: whole milliseconds, then picoseconds.
#[derive(Clone, Copy, Debug, PartialEq, Eq, PartialOrd, Ord)]
pub struct Moment {
    millis: u64,
    picos: u32,
}

impl Cds {
    /// The time that is so many milliseconds after the epoch.
    pub fn of_millis(millis: u64) -> Cds {
        Cds { days: (millis / DAY) as u16, millis: (millis % DAY) as u32, rest: Rest::Micros(0) }
    }

    pub fn moment(&self) -> Option<Moment> {
        let picos = match self.rest {
            Rest::Micros(u) if u <= 999 => u as u32 * 1_000_000,
            Rest::Picos(p) if p <= 999_999_999 => p,
            _ => return None,
        };
        if self.millis as u64 >= DAY {
            return None;
        }
        Some(Moment { millis: self.days as u64 * DAY + self.millis as u64, picos })
    }

    /// 8 or 10, the octets of its form.
    #[inline]
    pub fn size(&self) -> usize {
        match self.rest {
            Rest::Micros(_) => 8,
            Rest::Picos(_) => 10,
        }
    }

    #[inline]
    pub fn put(&self, into: &mut [u8; 10]) -> usize {
        into[0..2].copy_from_slice(&self.days.to_be_bytes());
        into[2..6].copy_from_slice(&self.millis.to_be_bytes());
        match self.rest {
            Rest::Micros(u) => {
                into[6..8].copy_from_slice(&u.to_be_bytes());
                8
            }
            Rest::Picos(p) => {
                into[6..10].copy_from_slice(&p.to_be_bytes());
                10
            }
        }
    }

    #[inline]
    pub fn from_micro(o: &[u8; 8]) -> Cds {
        Cds {
            days: u16::from_be_bytes([o[0], o[1]]),
            millis: u32::from_be_bytes([o[2], o[3], o[4], o[5]]),
            rest: Rest::Micros(u16::from_be_bytes([o[6], o[7]])),
        }
    }

    #[inline]
    pub fn from_pico(o: &[u8; 10]) -> Cds {
        Cds {
            days: u16::from_be_bytes([o[0], o[1]]),
            millis: u32::from_be_bytes([o[2], o[3], o[4], o[5]]),
            rest: Rest::Picos(u32::from_be_bytes([o[6], o[7], o[8], o[9]])),
        }
    }
}

impl Moment {
    /// Whole milliseconds since the epoch, rounded up.
    pub fn millis_up(&self) -> u64 {
        self.millis + (self.picos > 0) as u64
    }
}
