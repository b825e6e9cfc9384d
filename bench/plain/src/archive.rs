//! Entries and the archive's file, form 1 (docs/PROFILE.md, section 10).

use crate::cds::{Cds, Moment};

pub const HEADER: [u8; 8] = [0x53, 0x4c, 0x45, 0x41, 0, 0, 0, 1];
pub const OPEN: u8 = 0xa5;
pub const CLOSED: u8 = 0x00;
pub const CAPACITY: u64 = 268_435_456;
pub const MOST_ENTRIES: u64 = 4_194_304;
pub const MOST_IN_BATCH: usize = 256;
pub const LONGEST_FRAME: usize = 65_536;
pub const MOST_LOST: u32 = 16_777_215;

#[derive(Clone, Copy, Debug, PartialEq, Eq)]
pub enum Entry<'a> {
    Frame { time: Cds, quality: u8, antenna: &'a [u8], lost: u32, octets: &'a [u8] },
    Loss { at: Cds, carrier: u8, subcarrier: u8, symbol: u8 },
    Production { status: u8 },
    Seal { at: Cds },
}

impl Entry<'_> {
    pub fn size(&self) -> usize {
        match self {
            Entry::Frame { time, antenna, octets, .. } => {
                1 + 1 + time.size() + 1 + 1 + antenna.len() + 4 + 4 + octets.len()
            }
            Entry::Loss { at, .. } => 1 + 1 + at.size() + 3,
            Entry::Production { .. } => 2,
            Entry::Seal { at } => 1 + 1 + at.size(),
        }
    }

    pub fn write(&self, out: &mut Vec<u8>) {
        // All but a frame's octets: at most 1 + 11 + 1 + 1 + 16 + 4 + 4 = 38.
        let mut head = [0u8; 48];
        let used = match *self {
            Entry::Frame { time, quality, antenna, lost, octets } => {
                head[0] = 1;
                let mut n = 1 + put_time(&time, &mut head[1..12]);
                head[n] = quality;
                head[n + 1] = antenna.len() as u8;
                n += 2;
                head[n..n + antenna.len()].copy_from_slice(antenna);
                n += antenna.len();
                head[n..n + 4].copy_from_slice(&lost.to_be_bytes());
                head[n + 4..n + 8].copy_from_slice(&(octets.len() as u32).to_be_bytes());
                n += 8;
                out.extend_from_slice(&head[..n]);
                out.extend_from_slice(octets);
                return;
            }
            Entry::Loss { at, carrier, subcarrier, symbol } => {
                head[0] = 2;
                let n = 1 + put_time(&at, &mut head[1..12]);
                head[n..n + 3].copy_from_slice(&[carrier, subcarrier, symbol]);
                n + 3
            }
            Entry::Production { status } => {
                head[..2].copy_from_slice(&[3, status]);
                2
            }
            Entry::Seal { at } => {
                head[0] = 4;
                1 + put_time(&at, &mut head[1..12])
            }
        };
        out.extend_from_slice(&head[..used]);
    }
}

fn put_time(t: &Cds, into: &mut [u8]) -> usize {
    let mut o = [0; 10];
    let n = t.put(&mut o);
    into[0] = (n == 10) as u8;
    into[1..1 + n].copy_from_slice(&o[..n]);
    1 + n
}

/// The archive's order of times.
#[derive(Clone, Copy, Default, Debug, PartialEq, Eq)]
pub struct Order {
    pub last_frame: Option<Moment>,
    pub last_seal: Option<Moment>,
}

impl Order {
    #[inline]
    pub fn takes_frame(&self, t: Moment) -> bool {
        self.last_frame.map_or(true, |l| t >= l) && self.last_seal.map_or(true, |l| t > l)
    }

    #[inline]
    pub fn takes_seal(&self, t: Moment) -> bool {
        self.last_seal.map_or(true, |l| t >= l)
    }

    /// Nothing selected up to `t` can follow any more.
    pub fn closes(&self, t: Moment) -> bool {
        self.last_seal.is_some_and(|l| l >= t) || self.last_frame.is_some_and(|l| l > t)
    }
}

/// Appends a batch and the closed gate after it. The batch's first gate isn't part of it.
pub fn write_batch<'a>(entries: impl Iterator<Item = Entry<'a>>, out: &mut Vec<u8>) {
    let start = out.len();
    out.extend_from_slice(&[0; 6]);
    let mut count = 0u16;
    for e in entries {
        e.write(out);
        count += 1;
    }
    let length = (out.len() - start - 6) as u32;
    out[start..start + 4].copy_from_slice(&length.to_be_bytes());
    out[start + 4..start + 6].copy_from_slice(&count.to_be_bytes());
    out.push(CLOSED);
}

#[derive(Clone, Copy, Debug, PartialEq, Eq)]
pub enum FileFault {
    NotJournal { place: usize },
    Damaged { place: usize },
}

#[derive(Clone, Copy, Default, Debug, PartialEq, Eq)]
pub struct Found {
    pub used: usize,
    pub batches: u64,
    pub entries: u64,
    pub order: Order,
}

/// Validates a file image and hands its entries over in order, each with the
/// place of its first octet.
pub fn scan<'a>(file: &'a [u8], mut each: impl FnMut(usize, Entry<'a>)) -> Result<Found, FileFault> {
    for (k, h) in HEADER.iter().enumerate() {
        if file.get(k) != Some(h) {
            return Err(FileFault::NotJournal { place: k });
        }
    }
    let mut s = Scan { file, place: 8, order: Order::default() };
    let mut found = Found::default();
    let damaged = |place| FileFault::Damaged { place };
    while s.octet().map_err(damaged)? == OPEN {
        let length = u32::from_be_bytes(s.take().map_err(damaged)?) as usize;
        let at = s.place;
        let count = u16::from_be_bytes(s.take().map_err(damaged)?) as usize;
        if count == 0 || count > MOST_IN_BATCH {
            return Err(damaged(at));
        }
        let end = s.place + length;
        for _ in 0..count {
            let at = s.place;
            // A fault past the batch's own end is named by that end.
            let entry = s.entry().map_err(|p| damaged(p.min(end)))?;
            each(at, entry);
        }
        if s.place != end {
            return Err(damaged(s.place.min(end)));
        }
        found.batches += 1;
        found.entries += count as u64;
    }
    found.used = s.place;
    found.order = s.order;
    Ok(found)
}

struct Scan<'a> {
    file: &'a [u8],
    place: usize,
    order: Order,
}

/// A refusal names the place where reading stopped.
impl<'a> Scan<'a> {
    #[inline(always)]
    fn slice(&mut self, n: usize) -> Result<&'a [u8], usize> {
        match self.file.get(self.place..self.place + n) {
            Some(o) => {
                self.place += n;
                Ok(o)
            }
            None => Err(self.file.len()),
        }
    }

    #[inline(always)]
    fn take<const N: usize>(&mut self) -> Result<[u8; N], usize> {
        self.slice(N).map(|o| o.try_into().unwrap())
    }

    #[inline(always)]
    fn octet(&mut self) -> Result<u8, usize> {
        self.take::<1>().map(|o| o[0])
    }

    /// An octet of at most this value.
    #[inline(always)]
    fn up_to(&mut self, greatest: u8) -> Result<u8, usize> {
        let at = self.place;
        match self.octet()? {
            o if o <= greatest => Ok(o),
            _ => Err(at),
        }
    }

    #[inline(always)]
    fn time(&mut self) -> Result<(Cds, Moment), usize> {
        let at = self.place;
        let time = match self.octet()? {
            0 => Cds::from_micro(&self.take()?),
            1 => Cds::from_pico(&self.take()?),
            _ => return Err(at),
        };
        Ok((time, time.moment().ok_or(at)?))
    }

    #[inline(always)]
    fn entry(&mut self) -> Result<Entry<'a>, usize> {
        let at = self.place;
        match self.octet()? {
            1 => {
                let (time, moment) = self.time()?;
                if !self.order.takes_frame(moment) {
                    return Err(at + 1);
                }
                let quality = self.up_to(2)?;
                let at = self.place;
                let antenna = match self.octet()? as usize {
                    n @ 1..=16 => self.slice(n)?,
                    _ => return Err(at),
                };
                let at = self.place;
                let lost = u32::from_be_bytes(self.take()?);
                if lost > MOST_LOST {
                    return Err(at);
                }
                let at = self.place;
                let length = u32::from_be_bytes(self.take()?) as usize;
                if length == 0 || length > LONGEST_FRAME {
                    return Err(at);
                }
                let octets = self.slice(length)?;
                self.order.last_frame = Some(moment);
                Ok(Entry::Frame { time, quality, antenna, lost, octets })
            }
            2 => Ok(Entry::Loss {
                at: self.time()?.0,
                carrier: self.up_to(3)?,
                subcarrier: self.up_to(3)?,
                symbol: self.up_to(3)?,
            }),
            3 => Ok(Entry::Production { status: self.up_to(2)? }),
            4 => {
                let (seal, moment) = self.time()?;
                if !self.order.takes_seal(moment) {
                    return Err(at + 1);
                }
                self.order.last_seal = Some(moment);
                Ok(Entry::Seal { at: seal })
            }
            _ => Err(at),
        }
    }
}

// ---------------------------------------------------------------- the archive in memory

#[derive(Debug, PartialEq, Eq)]
pub enum Refusal {
    Backward,
    TooLong,
    Full { need: u64, free: u64 },
}

/// What the desk needs of a stored frame. Its antenna and its octets stand one
/// after the other in the store's pool.
pub struct Stored {
    pub moment: Moment,
    place: usize,
    length: u32,
    pub lost: u32,
    time: Cds,
    antenna: u8,
    pub quality: u8,
}

/// The published list and the file image of it, as a no-op disk would hold it.
pub struct Store {
    pub image: Vec<u8>,
    pub frames: Vec<Stored>,
    pool: Vec<u8>,
    pub order: Order,
    entries: u64,
    capacity: u64,
}

impl Store {
    /// `octets` is a guess of the frame octets to come.
    pub fn new(capacity: u64, octets: usize) -> Store {
        let mut image = Vec::with_capacity(octets + octets / 16 + 64);
        image.extend_from_slice(&HEADER);
        image.push(CLOSED);
        Store {
            image,
            frames: Vec::new(),
            pool: Vec::with_capacity(octets),
            order: Order::default(),
            entries: 0,
            capacity,
        }
    }

    /// Stores one entry as a batch of its own, and publishes it.
    pub fn offer(&mut self, entry: &Entry) -> Result<(), Refusal> {
        let mut order = self.order;
        match *entry {
            Entry::Frame { time, octets, .. } => {
                let t = time.moment().expect("a valid time");
                if !order.takes_frame(t) {
                    return Err(Refusal::Backward);
                }
                if octets.len() > LONGEST_FRAME {
                    return Err(Refusal::TooLong);
                }
                order.last_frame = Some(t);
            }
            Entry::Seal { at } => {
                let t = at.moment().expect("a valid time");
                if !order.takes_seal(t) {
                    return Err(Refusal::Backward);
                }
                order.last_seal = Some(t);
            }
            _ => {}
        }
        let need = entry.size() as u64 + 7;
        let free = match self.entries {
            MOST_ENTRIES.. => 0,
            _ => self.capacity.saturating_sub(self.image.len() as u64),
        };
        if need > free {
            return Err(Refusal::Full { need, free });
        }

        let gate = self.image.len() - 1;
        write_batch(std::iter::once(*entry), &mut self.image);
        sync();
        self.image[gate] = OPEN;
        sync();

        self.entries += 1;
        self.order = order;
        if let Entry::Frame { time, quality, antenna, lost, octets } = *entry {
            let place = self.pool.len();
            self.pool.extend_from_slice(antenna);
            self.pool.extend_from_slice(octets);
            self.frames.push(Stored {
                moment: order.last_frame.unwrap(),
                place,
                length: octets.len() as u32,
                lost,
                time,
                antenna: antenna.len() as u8,
                quality,
            });
        }
        Ok(())
    }

    pub fn sent(&self, f: &Stored, continuity: i32) -> crate::raf::Sent<'_> {
        let data = f.place + f.antenna as usize;
        crate::raf::Sent {
            time: f.time,
            antenna: &self.pool[f.place..data],
            continuity,
            quality: f.quality,
            octets: &self.pool[data..data + f.length as usize],
        }
    }
}

/// The disk in memory has nothing to sync.
#[inline(always)]
fn sync() {}


#[cfg(test)]
mod tests {
    use super::*;
    use crate::cds::Rest;
    use FileFault::*;

    fn octets(text: &str) -> Vec<u8> {
        let mut o = Vec::new();
        assert!(crate::hex::decode(text.replace(' ', "").as_bytes(), &mut o));
        o
    }

    const F1: &str =
        "534c454100000001 a5 00000018 0001 01 00 4e20000003e80000 00 01 41 00000000 00000003 0010a1 00";

    fn found(file: &[u8]) -> Result<(u64, usize), FileFault> {
        scan(file, |_, _| ()).map(|f| (f.entries, f.used))
    }

    #[test]
    fn example_of_a_file() {
        let file = octets(F1);
        let mut seen = Vec::new();
        let f = scan(&file, |at, e| seen.push((at, e))).unwrap();
        assert_eq!((f.entries, f.used), (1, 40));
        let time = Cds { days: 20000, millis: 1000, rest: Rest::Micros(0) };
        let e = Entry::Frame { time, quality: 0, antenna: &[0x41], lost: 0, octets: &[0, 0x10, 0xa1] };
        assert_eq!(seen, [(15, e)]);
        let mut s = Store::new(CAPACITY, 0);
        s.offer(&e).unwrap();
        assert_eq!(s.image, file);
    }

    #[test]
    fn faults() {
        assert_eq!(found(&[]), Err(NotJournal { place: 0 }));
        assert_eq!(found(&octets("534c4541000000")), Err(NotJournal { place: 7 }));
        assert_eq!(found(&HEADER), Err(Damaged { place: 8 }));
        assert_eq!(found(&octets("534c454100000001a5")), Err(Damaged { place: 9 }));
        assert_eq!(found(&octets("534c45410000000100")), Ok((0, 9)));
        // any gate but A5 is closed, and what follows isn't read
        assert_eq!(found(&octets("534c4541000000017fffff")), Ok((0, 9)));
        let file = octets(F1);
        for n in 9..file.len() {
            let cut = if n < file.len() { n } else { continue };
            assert_eq!(found(&file[..cut]), Err(Damaged { place: cut }), "{n}");
        }
        let with = |at: usize, o: u8| {
            let mut f = file.clone();
            f[at] = o;
            found(&f)
        };
        assert_eq!(with(14, 0), Err(Damaged { place: 13 })); // no entry
        assert_eq!(with(13, 2), Err(Damaged { place: 13 })); // 513 entries
        assert_eq!(with(15, 5), Err(Damaged { place: 15 })); // kind
        assert_eq!(with(16, 2), Err(Damaged { place: 16 })); // form of time
        assert_eq!(with(19, 0xff), Err(Damaged { place: 16 })); // millis
        assert_eq!(with(25, 3), Err(Damaged { place: 25 })); // quality
        assert_eq!(with(26, 0), Err(Damaged { place: 26 })); // antenna length
        assert_eq!(with(28, 1), Err(Damaged { place: 28 })); // lost
        assert_eq!(with(35, 0), Err(Damaged { place: 32 })); // frame length
        assert_eq!(with(12, 0x17), Err(Damaged { place: 38 })); // lesser end: the length's
        assert_eq!(with(12, 0x19), Err(Damaged { place: 39 })); // lesser end: the entries'
        assert_eq!(with(12, 0x05), Err(Damaged { place: 20 }));
        assert_eq!(with(39, 0xa5), Err(Damaged { place: 40 }));
    }

    #[test]
    fn order_of_times() {
        let at = |ms| Cds::of_millis(ms);
        let frame = |ms| Entry::Frame { time: at(ms), quality: 0, antenna: &[1], lost: 0, octets: &[7] };
        let seal = |ms| Entry::Seal { at: at(ms) };
        let loss = Entry::Loss { at: at(0), carrier: 0, subcarrier: 1, symbol: 2 };
        let runs: [(&[Entry], bool); 7] = [
            (&[frame(5), frame(5), seal(3), frame(6), seal(6), loss, Entry::Production { status: 2 }], true),
            (&[frame(5), frame(4)], false),
            (&[seal(5), frame(5)], false),
            (&[seal(5), frame(6)], true),
            (&[seal(5), seal(4)], false),
            (&[frame(5), seal(4), frame(4)], false),
            (&[seal(5), seal(5)], true),
        ];
        for (list, good) in runs {
            let mut file = HEADER.to_vec();
            file.push(OPEN);
            write_batch(list.iter().copied(), &mut file);
            let mut seen = Vec::new();
            let got = scan(&file, |_, e| seen.push(e));
            assert_eq!(got.is_ok(), good);
            let mut s = Store::new(CAPACITY, 0);
            let ok = list.iter().filter(|e| s.offer(e).is_ok()).count();
            assert_eq!(ok == list.len(), good);
            if good {
                assert_eq!(seen, list);
                assert_eq!(scan(&s.image, |_, _| ()).unwrap().order, got.unwrap().order);
            } else {
                let last = list.last().unwrap().size();
                assert_eq!(got, Err(Damaged { place: file.len() - 1 - last + 1 }));
            }
        }
    }

    #[test]
    fn damaged_files_never_panic() {
        let file = octets(F1);
        let mut x = 1u32;
        let mut draw = |n: usize| {
            x = x.wrapping_mul(1_103_515_245).wrapping_add(12_345);
            (x >> 16) as usize % n
        };
        for _ in 0..300_000 {
            let mut o = file.clone();
            for _ in 0..1 + draw(3) {
                let at = 8 + draw(o.len() - 8);
                match draw(4) {
                    0 => o[at] = draw(256) as u8,
                    1 => o[at] ^= 1 << draw(8),
                    2 => o.truncate(at + 1),
                    _ => o.insert(at, draw(256) as u8),
                }
            }
            if let Err(Damaged { place }) = found(&o) {
                assert!(place <= o.len());
            }
        }
    }
}
