//! RAF transfer buffers (CCSDS 911.1-B, annex A): writing, and strict reading.

use crate::cds::Cds;
use crate::tml;

// ---------------------------------------------------------------- writing

/// A frame as this provider sends it: unused credentials, local antenna, no annotation.
#[derive(Clone, Copy)]
pub struct Sent<'a> {
    pub time: Cds,
    pub antenna: &'a [u8],
    pub continuity: i32,
    pub quality: u8,
    pub octets: &'a [u8],
}

/// Octets of a length in its shortest definite form.
#[inline]
fn length_size(n: usize) -> usize {
    match n {
        0..=0x7f => 1,
        0x80..=0xff => 2,
        0x100..=0xffff => 3,
        0x1_0000..=0xff_ffff => 4,
        _ => 5,
    }
}

/// Content octets of an INTEGER.
#[inline]
fn integer_size(v: i32) -> usize {
    let magnitude = if v < 0 { !v } else { v };
    (32 - magnitude.leading_zeros()) as usize / 8 + 1
}

impl Sent<'_> {
    #[inline]
    fn content(&self) -> usize {
        let n = self.octets.len();
        2 + 2 + self.time.size() + 2 + self.antenna.len() + 2 + integer_size(self.continuity)
            + 3 + 2 + 1 + length_size(n) + n
    }

    #[inline]
    fn size(&self) -> usize {
        let c = self.content();
        1 + length_size(c) + c
    }

    #[inline]
    fn write(&self, out: &mut Vec<u8>) {
        let mut p = Prefix { octets: [0; 64], used: 0 };
        p.put(&[0xa0]);
        p.length(self.content());
        p.put(&[0x80, 0]);
        let mut time = [0; 10];
        let n = self.time.put(&mut time);
        p.put(&[if n == 8 { 0x80 } else { 0x81 }, n as u8]);
        p.put(&time[..n]);
        p.put(&[0x81, self.antenna.len() as u8]);
        p.put(self.antenna);
        let n = integer_size(self.continuity);
        p.put(&[0x02, n as u8]);
        p.put(&self.continuity.to_be_bytes()[4 - n..]);
        p.put(&[0x02, 1, self.quality, 0x80, 0, 0x04]);
        p.length(self.octets.len());
        out.extend_from_slice(&p.octets[..p.used]);
        out.extend_from_slice(self.octets);
    }
}

/// The octets before a frame's own: at most 1+4 + 2 + 2+10 + 2+16 + 2+4 + 3 + 2 + 1+4 = 53.
struct Prefix {
    octets: [u8; 64],
    used: usize,
}

impl Prefix {
    #[inline(always)]
    fn put(&mut self, octets: &[u8]) {
        self.octets[self.used..self.used + octets.len()].copy_from_slice(octets);
        self.used += octets.len();
    }

    #[inline(always)]
    fn length(&mut self, n: usize) {
        let size = length_size(n);
        if size == 1 {
            self.put(&[n as u8]);
        } else {
            self.put(&[0x80 | (size - 1) as u8]);
            self.put(&(n as u32).to_be_bytes()[5 - size..]);
        }
    }
}

/// Appends one message: a transfer buffer of these frames.
pub fn write_buffer(frames: &[Sent], out: &mut Vec<u8>) {
    let content: usize = frames.iter().map(Sent::size).sum();
    let body = 1 + length_size(content) + content;
    out.reserve(8 + body);
    out.extend_from_slice(&tml::head(1, body as u32));
    let mut p = Prefix { octets: [0; 64], used: 0 };
    p.put(&[0xa8]);
    p.length(content);
    out.extend_from_slice(&p.octets[..p.used]);
    for f in frames {
        f.write(out);
    }
}

/// One message: a transfer buffer with the end of data alone.
pub const END_OF_DATA: [u8; 16] =
    [1, 0, 0, 0, 0, 0, 0, 8, 0xa8, 6, 0xa1, 4, 0x80, 0, 0x83, 0];

// ---------------------------------------------------------------- reading

#[derive(Clone, Copy, Debug, PartialEq, Eq)]
pub enum BerFault {
    Cut { place: usize },
    WrongTag { place: usize, found: u8 },
    BadLength { place: usize },
    BadContent { place: usize },
    Wide { place: usize },
}

#[derive(Debug, PartialEq, Eq)]
pub enum Credentials<'a> {
    Unused,
    Used(&'a [u8]),
}

#[derive(Debug, PartialEq, Eq)]
pub enum Antenna<'a> {
    Global(&'a [u8]),
    Local(&'a [u8]),
}

#[derive(Debug, PartialEq, Eq)]
pub enum Item<'a> {
    Frame {
        credentials: Credentials<'a>,
        time: Cds,
        antenna: Antenna<'a>,
        continuity: i32,
        quality: u8,
        note: Option<&'a [u8]>,
        octets: &'a [u8],
    },
    Loss { credentials: Credentials<'a>, at: Cds, carrier: u8, subcarrier: u8, symbol: u8 },
    Production { credentials: Credentials<'a>, status: i128 },
    Backlog { credentials: Credentials<'a> },
    EndOfData { credentials: Credentials<'a> },
}

type Read<T> = Result<T, BerFault>;

struct Reader<'a> {
    octets: &'a [u8],
    place: usize,
}

impl<'a> Reader<'a> {
    /// Enters the outermost element and gives its content's end.
    fn outermost(&mut self, tag: u8) -> Read<usize> {
        let cut = BerFault::Cut { place: 0 };
        let o = self.octets;
        let found = *o.first().ok_or(cut)?;
        if found != tag {
            return Err(BerFault::WrongTag { place: 0, found });
        }
        let first = *o.get(1).ok_or(cut)?;
        let (content, start) = if first < 0x80 {
            (Some(first as usize), 2)
        } else {
            let n = (first & 0x7f) as usize;
            if n == 0 || n > 8 {
                return Err(BerFault::BadLength { place: 1 });
            }
            (number(o.get(2..2 + n).ok_or(cut)?), 2 + n)
        };
        self.place = start;
        match content {
            Some(c) if c <= o.len() - start => Ok(start + c),
            _ => Err(cut),
        }
    }

    /// The next element's tag inside an element that ends at `end`.
    #[inline(always)]
    fn peek(&self, end: usize) -> Read<u8> {
        if self.place >= end {
            return Err(BerFault::BadLength { place: end });
        }
        Ok(self.octets[self.place])
    }

    #[inline(always)]
    fn expect(&self, tag: u8, end: usize) -> Read<()> {
        match self.peek(end)? {
            t if t == tag => Ok(()),
            _ => Err(self.wrong_tag()),
        }
    }

    fn wrong_tag(&self) -> BerFault {
        BerFault::WrongTag { place: self.place, found: self.octets[self.place] }
    }

    /// Steps over the tag and the length, to the content, and gives its end.
    #[inline(always)]
    fn enter(&mut self, end: usize) -> Read<usize> {
        let at = self.place + 1;
        if at < end {
            let first = self.octets[at];
            if first < 0x80 {
                self.place = at + 1;
                let stop = self.place + first as usize;
                return if stop <= end { Ok(stop) } else { Err(BerFault::BadLength { place: at }) };
            }
            if first == 0x82 && at + 2 < end {
                self.place = at + 3;
                let n = u16::from_be_bytes([self.octets[at + 1], self.octets[at + 2]]);
                let stop = self.place + n as usize;
                return if stop <= end { Ok(stop) } else { Err(BerFault::BadLength { place: at }) };
            }
        }
        self.enter_long(at, end)
    }

    #[cold]
    #[inline(never)]
    fn enter_long(&mut self, at: usize, end: usize) -> Read<usize> {
        let bad = BerFault::BadLength { place: at };
        if at >= end {
            return Err(bad);
        }
        let n = (self.octets[at] & 0x7f) as usize;
        if n == 0 || n > 8 || n > end - at - 1 {
            return Err(bad);
        }
        self.place = at + 1 + n;
        match number(&self.octets[at + 1..at + 1 + n]) {
            Some(c) if c <= end - self.place => Ok(self.place + c),
            _ => Err(bad),
        }
    }

    #[inline(always)]
    fn leave(&self, end: usize) -> Read<()> {
        if self.place < end {
            return Err(BerFault::BadLength { place: self.place });
        }
        Ok(())
    }

    #[inline(always)]
    fn null(&mut self, end: usize) -> Read<()> {
        let stop = self.enter(end)?;
        if stop != self.place {
            return Err(BerFault::BadContent { place: self.place });
        }
        Ok(())
    }

    #[inline(always)]
    fn string(&mut self, end: usize, least: usize, greatest: usize) -> Read<&'a [u8]> {
        let stop = self.enter(end)?;
        let content = &self.octets[self.place..stop];
        if content.len() < least || content.len() > greatest {
            return Err(BerFault::BadContent { place: self.place });
        }
        self.place = stop;
        Ok(content)
    }

    #[inline(always)]
    fn integer(&mut self, end: usize, least: i128, greatest: i128) -> Read<i128> {
        let stop = self.enter(end)?;
        let place = self.place;
        let c = &self.octets[place..stop];
        let value = match *c {
            [a] => a as i8 as i128,
            _ => long_integer(c, place)?,
        };
        if value < least || value > greatest {
            return Err(BerFault::BadContent { place });
        }
        self.place = stop;
        Ok(value)
    }

    #[inline(always)]
    fn credentials(&mut self, end: usize) -> Read<Credentials<'a>> {
        match self.peek(end)? {
            0x80 => self.null(end).map(|()| Credentials::Unused),
            0x81 => self.string(end, 8, 256).map(Credentials::Used),
            _ => Err(self.wrong_tag()),
        }
    }

    #[inline(always)]
    fn time(&mut self, end: usize) -> Read<Cds> {
        match self.peek(end)? {
            0x80 => self.string(end, 8, 8).map(|o| Cds::from_micro(o.try_into().unwrap())),
            0x81 => self.string(end, 10, 10).map(|o| Cds::from_pico(o.try_into().unwrap())),
            _ => Err(self.wrong_tag()),
        }
    }

    fn object_id(&mut self, end: usize) -> Read<&'a [u8]> {
        let stop = self.enter(end)?;
        let c = &self.octets[self.place..stop];
        let ends = c.last().is_some_and(|&l| l < 0x80);
        let mut fresh = true;
        for &o in c {
            if !ends || fresh && o == 0x80 {
                return Err(BerFault::BadContent { place: self.place });
            }
            fresh = o < 0x80;
        }
        if !ends {
            return Err(BerFault::BadContent { place: self.place });
        }
        self.place = stop;
        Ok(c)
    }

    #[inline]
    fn frame(&mut self, end: usize) -> Read<Item<'a>> {
        let stop = self.enter(end)?;
        let credentials = self.credentials(stop)?;
        let time = self.time(stop)?;
        let antenna = match self.peek(stop)? {
            0x80 => Antenna::Global(self.object_id(stop)?),
            0x81 => Antenna::Local(self.string(stop, 1, 16)?),
            _ => return Err(self.wrong_tag()),
        };
        self.expect(0x02, stop)?;
        let continuity = self.integer(stop, -1, 16_777_215)? as i32;
        self.expect(0x02, stop)?;
        let quality = self.integer(stop, 0, 2)? as u8;
        let note = match self.peek(stop)? {
            0x80 => {
                self.null(stop)?;
                None
            }
            0x81 => Some(self.string(stop, 1, 128)?),
            _ => return Err(self.wrong_tag()),
        };
        self.expect(0x04, stop)?;
        let octets = self.string(stop, 1, 65_536)?;
        self.leave(stop)?;
        Ok(Item::Frame { credentials, time, antenna, continuity, quality, note, octets })
    }

    #[cold]
    fn notification(&mut self, end: usize) -> Read<Item<'a>> {
        let stop = self.enter(end)?;
        let credentials = self.credentials(stop)?;
        let item = match self.peek(stop)? {
            0xa0 => {
                let inner = self.enter(stop)?;
                let at = self.time(inner)?;
                let mut lock = [0; 3];
                for l in &mut lock {
                    self.expect(0x02, inner)?;
                    *l = self.integer(inner, 0, 3)? as u8;
                }
                self.leave(inner)?;
                let [carrier, subcarrier, symbol] = lock;
                Item::Loss { credentials, at, carrier, subcarrier, symbol }
            }
            0x81 => Item::Production {
                credentials,
                status: self.integer(stop, i64::MIN as i128, u64::MAX as i128)?,
            },
            0x82 => {
                self.null(stop)?;
                Item::Backlog { credentials }
            }
            0x83 => {
                self.null(stop)?;
                Item::EndOfData { credentials }
            }
            _ => return Err(self.wrong_tag()),
        };
        self.leave(stop)?;
        Ok(item)
    }
}

/// A length of 1 to 8 octets, None where it doesn't fit a usize.
fn number(octets: &[u8]) -> Option<usize> {
    let n = octets.iter().fold(0u64, |n, &o| n << 8 | o as u64);
    usize::try_from(n).ok()
}

fn long_integer(c: &[u8], place: usize) -> Read<i128> {
    let redundant = c.len() > 1
        && (c[0] == 0 && c[1] < 0x80 || c[0] == 0xff && c[1] >= 0x80);
    if c.is_empty() || redundant {
        return Err(BerFault::BadContent { place });
    }
    if c.len() > 9 || c.len() == 9 && c[0] != 0 {
        return Err(BerFault::Wide { place });
    }
    let sign = if c[0] >= 0x80 { -1i128 } else { 0 };
    Ok(c.iter().fold(sign, |n, &o| n << 8 | o as i128))
}

/// Reads the octets of one PDU as a transfer buffer and hands its items over in
/// order. Ok only where all of them are a transfer buffer; the items before a
/// fault are handed over too.
pub fn read_buffer<'a>(octets: &'a [u8], mut each: impl FnMut(Item<'a>)) -> Read<()> {
    let mut r = Reader { octets, place: 0 };
    let end = r.outermost(0xa8)?;
    while r.place < end {
        each(match octets[r.place] {
            0xa0 => r.frame(end)?,
            0xa1 => r.notification(end)?,
            _ => return Err(r.wrong_tag()),
        });
    }
    r.leave(octets.len())
}

#[cfg(test)]
mod tests {
    use super::*;
    use BerFault::*;

    fn octets(text: &str) -> Vec<u8> {
        let mut o = Vec::new();
        assert!(text.is_empty() || crate::hex::decode(text.as_bytes(), &mut o));
        o
    }

    fn fault(text: &str) -> Option<BerFault> {
        read_buffer(&octets(text), |_| ()).err()
    }

    #[test]
    fn integers() {
        let read = |text: &str| {
            let o = octets(text);
            let mut r = Reader { octets: &o, place: 0 };
            r.expect(2, o.len()).and_then(|()| r.integer(o.len(), i64::MIN as i128, u64::MAX as i128))
        };
        assert_eq!(read("0500"), Err(WrongTag { place: 0, found: 5 }));
        assert_eq!(read("0280"), Err(BadLength { place: 1 }));
        assert_eq!(read("02020001"), Err(BadContent { place: 2 }));
        assert_eq!(read("0200"), Err(BadContent { place: 2 }));
        assert_eq!(read("02810105"), Ok(5));
        assert_eq!(read("020900ffffffffffffffff"), Ok(18446744073709551615));
        assert_eq!(read("0209010000000000000000"), Err(Wide { place: 2 }));
        for (t, v) in [("0201ff", -1), ("02020080", 128), ("020203e5", 997), ("020500ffffffff", 4294967295)] {
            assert_eq!(read(t), Ok(v));
        }
    }

    const A1: &str = "a81ea01c800080084e20000003e800008101410201ff020100800004030010a1";

    #[test]
    fn row_1() {
        let o = octets(A1);
        let mut items = Vec::new();
        assert_eq!(read_buffer(&o, |i| items.push(i)), Ok(()));
        let Item::Frame { credentials, time, antenna, continuity, quality, note, octets } = &items[0]
        else {
            panic!()
        };
        assert_eq!(*credentials, Credentials::Unused);
        assert_eq!((time.days, time.millis), (20000, 1000));
        assert_eq!(*antenna, Antenna::Local(&[0x41]));
        assert_eq!((*continuity, *quality, *note), (-1, 0, None));
        assert_eq!(*octets, [0, 0x10, 0xa1]);
        assert_eq!(items.len(), 1);
    }

    #[test]
    fn faults() {
        assert_eq!(fault(""), Some(Cut { place: 0 }));
        let whole = octets(A1);
        for n in 0..whole.len() {
            assert_eq!(read_buffer(&whole[..n], |_| ()), Err(Cut { place: 0 }));
        }
        assert_eq!(fault("a800"), None);
        assert_eq!(fault("a880"), Some(BadLength { place: 1 }));
        assert_eq!(fault("a8ff"), Some(BadLength { place: 1 }));
        assert_eq!(fault("a889"), Some(BadLength { place: 1 }));
        assert_eq!(fault("a8880000000000000000"), None);
        assert_eq!(fault("a888ffffffffffffffff"), Some(Cut { place: 0 }));
        assert_eq!(fault("a80000"), Some(BadLength { place: 2 }));
        assert_eq!(fault("a700"), Some(WrongTag { place: 0, found: 0xa7 }));
        assert_eq!(fault("a802a200"), Some(WrongTag { place: 2, found: 0xa2 }));
        assert_eq!(fault("a801a0"), Some(BadLength { place: 3 }));
        assert_eq!(fault("a802a001"), Some(BadLength { place: 3 }));
        assert_eq!(fault("a802a000"), Some(BadLength { place: 4 }));
        // end of data, backlog, production, loss
        assert_eq!(fault("a806a10480008300"), None);
        assert_eq!(fault("a806a10480008200"), None);
        assert_eq!(fault("a807a1058000810101"), None);
        assert_eq!(fault("a819a1178000a01380084e20000003e80000020103020102020101"), None);
        assert_eq!(fault("a819a1178000a01380084e20000003e80000020104020102020101"), Some(BadContent { place: 20 }));
        assert_eq!(fault("a807a105800083010a"), Some(BadContent { place: 8 }));
        assert_eq!(fault("a808a106800083000500"), Some(BadLength { place: 8 }));
        // fields of a frame
        let swapped = |from: &str, to: &str| fault(&A1.replace(from, to));
        assert_eq!(swapped("0201ff", "0201fe"), Some(BadContent { place: 21 }));
        assert_eq!(swapped("020100", "020103"), Some(BadContent { place: 24 }));
        assert_eq!(swapped("04030010a1", "05030010a1"), Some(WrongTag { place: 27, found: 5 }));
        assert_eq!(swapped("04030010a1", "04020010a1"), Some(BadLength { place: 31 }));
        assert_eq!(swapped("04030010a1", "04040010a1"), Some(BadLength { place: 28 }));
        assert_eq!(swapped("04030010a1", "0481020010"), None);
        assert_eq!(swapped("04030010a1", "0400040010"), Some(BadContent { place: 29 }));
        assert_eq!(swapped("800080084e", "810080084e"), Some(BadContent { place: 6 }));
        assert_eq!(swapped("80084e20000003e80000", "81084e20000003e80000"), Some(BadContent { place: 8 }));
        assert_eq!(swapped("810141", "800141"), None);
        assert_eq!(swapped("810141", "8001c1"), Some(BadContent { place: 18 }));
        assert_eq!(swapped("810141", "820141"), Some(WrongTag { place: 16, found: 0x82 }));
    }

    #[test]
    fn written_and_read() {
        let data: Vec<u8> = (0..70_000).map(|k| k as u8).collect();
        let sizes = [1, 2, 100, 127, 128, 255, 256, 1115, 65_535, 65_536];
        for (k, &n) in sizes.iter().enumerate() {
            for continuity in [-1, 0, 127, 128, 32_767, 32_768, 8_388_607, 8_388_608, 16_777_215] {
                let mut time = Cds::of_millis(1_728_000_000_000 + k as u64);
                if k % 2 == 1 {
                    time.rest = crate::cds::Rest::Picos(999_999_999);
                }
                let f = Sent { time, antenna: &data[..1 + k], continuity, quality: 1, octets: &data[..n] };
                let mut out = Vec::new();
                write_buffer(&[f, f], &mut out);
                let mut seen = 0;
                read_buffer(&out[8..], |i| {
                    seen += 1;
                    let Item::Frame { time: t, antenna, continuity: c, quality, note, octets, .. } = i else {
                        panic!()
                    };
                    assert_eq!((t, c, quality, note), (time, continuity, 1, None));
                    assert_eq!(antenna, Antenna::Local(f.antenna));
                    assert_eq!(octets, f.octets);
                })
                .unwrap();
                assert_eq!(seen, 2);
                assert_eq!(out[..8], tml::head(1, out.len() as u32 - 8));
            }
        }
    }

    #[test]
    fn damaged_buffers_never_panic() {
        let seeds = [
            octets(A1),
            octets("a819a1178000a01380084e20000003e80000020103020102020101"),
            octets("a818a106800083008102a10e810800000000000000008300"),
        ];
        let mut x = 1u32;
        let mut draw = |n: usize| {
            x = x.wrapping_mul(1_103_515_245).wrapping_add(12_345);
            (x >> 16) as usize % n
        };
        let mut good = 0;
        for k in 0..300_000 {
            let mut o = seeds[k % seeds.len()].clone();
            for _ in 0..1 + draw(3) {
                let at = draw(o.len());
                match draw(4) {
                    0 => o[at] = draw(256) as u8,
                    1 => o[at] ^= 1 << draw(8),
                    2 => drop(o.remove(at)),
                    _ => o.insert(at, draw(256) as u8),
                }
            }
            good += read_buffer(&o, |_| ()).is_ok() as usize;
        }
        assert!(good > 0);
    }
}
