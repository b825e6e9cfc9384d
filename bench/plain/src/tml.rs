//! Transport messages (CCSDS 913.1-B): a feeder that takes any pieces.

pub const LONGEST: usize = 1_048_576;
const ROOM: usize = LONGEST + 8;
const CONTEXT: [u8; 8] = *b"ISP1\0\0\0\x01";

#[derive(Clone, Copy, Debug, PartialEq, Eq)]
pub enum TmlFault {
    BadType { place: u64 },
    NotZero { place: u64 },
    BadLength { place: u64 },
    TooLong { length: u32 },
    BadContext { place: u64 },
}

#[derive(Debug, PartialEq, Eq)]
pub enum Message<'a> {
    Pdu(&'a [u8]),
    Context { interval: u16, factor: u16 },
    Heartbeat,
}

/// Holds `buf[head..tail]`. The messages in `buf[head..whole]` are complete and
/// checked; what follows is the beginning of one.
pub struct Feeder {
    buf: Vec<u8>,
    head: usize,
    whole: usize,
    tail: usize,
    /// Place in the stream of `buf[0]`.
    origin: u64,
    fault: Option<TmlFault>,
}

impl Feeder {
    pub fn new() -> Feeder {
        // Twice the room, so that octets move only after as many were consumed.
        Feeder { buf: vec![0; 2 * ROOM], head: 0, whole: 0, tail: 0, origin: 0, fault: None }
    }

    pub fn room(&self) -> usize {
        ROOM - (self.tail - self.head)
    }

    /// Takes the lesser of the piece's length and the room.
    pub fn feed(&mut self, piece: &[u8]) -> Result<usize, TmlFault> {
        if let Some(f) = self.fault {
            return Err(f);
        }
        let held = self.tail - self.head;
        if held <= self.head {
            self.buf.copy_within(self.head..self.tail, 0);
            self.origin = self.origin.saturating_add(self.head as u64);
            self.whole -= self.head;
            self.tail = held;
            self.head = 0;
        }
        let taken = piece.len().min(self.room());
        self.buf[self.tail..self.tail + taken].copy_from_slice(&piece[..taken]);
        self.tail += taken;
        while self.whole < self.tail {
            let place = self.origin.saturating_add(self.whole as u64);
            match check(&self.buf[self.whole..self.tail], place) {
                Ok(Some(size)) => self.whole += size,
                Ok(None) => break,
                Err(f) => {
                    self.fault = Some(f);
                    return Err(f);
                }
            }
        }
        Ok(taken)
    }

    pub fn next_message(&mut self) -> Result<Option<Message<'_>>, TmlFault> {
        if let Some(f) = self.fault {
            return Err(f);
        }
        if self.head == self.whole {
            return Ok(None);
        }
        let m = &self.buf[self.head..self.whole];
        let size = 8 + u32::from_be_bytes([m[4], m[5], m[6], m[7]]) as usize;
        self.head += size;
        let body = &m[8..size];
        Ok(Some(match m[0] {
            1 => Message::Pdu(body),
            2 => Message::Context {
                interval: u16::from_be_bytes([body[8], body[9]]),
                factor: u16::from_be_bytes([body[10], body[11]]),
            },
            _ => Message::Heartbeat,
        }))
    }

    /// Place in the stream of the first octet that stands in no message given so far.
    pub fn place(&self) -> u64 {
        self.origin.saturating_add(self.head as u64)
    }

    pub fn holds_part(&self) -> bool {
        self.head < self.tail
    }
}

/// The size of the message that `o` begins with, None where it isn't whole yet.
#[inline]
fn check(o: &[u8], place: u64) -> Result<Option<usize>, TmlFault> {
    let at = |k: usize| place.saturating_add(k as u64);
    if !(1..=3).contains(&o[0]) {
        return Err(TmlFault::BadType { place });
    }
    if let Some(k) = o.iter().take(4).skip(1).position(|&z| z != 0) {
        return Err(TmlFault::NotZero { place: at(1 + k) });
    }
    if o.len() < 8 {
        return Ok(None);
    }
    let length = u32::from_be_bytes([o[4], o[5], o[6], o[7]]);
    match o[0] {
        1 if length as usize > LONGEST => return Err(TmlFault::TooLong { length }),
        2 if length != 12 => return Err(TmlFault::BadLength { place: at(4) }),
        3 if length != 0 => return Err(TmlFault::BadLength { place: at(4) }),
        _ => {}
    }
    if o[0] == 2 {
        if let Some(k) = o[8..].iter().zip(CONTEXT).position(|(&a, b)| a != b) {
            return Err(TmlFault::BadContext { place: at(8 + k) });
        }
    }
    let size = 8 + length as usize;
    Ok(if o.len() >= size { Some(size) } else { None })
}

/// The header of a message.
pub fn head(kind: u8, length: u32) -> [u8; 8] {
    let l = length.to_be_bytes();
    [kind, 0, 0, 0, l[0], l[1], l[2], l[3]]
}

#[cfg(test)]
mod tests {
    use super::*;

    fn fed(text: &str) -> Result<usize, TmlFault> {
        let mut o = Vec::new();
        assert!(crate::hex::decode(text.as_bytes(), &mut o));
        Feeder::new().feed(&o)
    }

    #[test]
    fn table_of_r3() {
        let mut f = Feeder::new();
        for p in [&[3, 0][..], &[0; 5]] {
            assert_eq!(f.feed(p), Ok(p.len()));
            assert_eq!(f.next_message(), Ok(None));
        }
        assert_eq!(f.feed(&[0]), Ok(1));
        assert_eq!(f.next_message(), Ok(Some(Message::Heartbeat)));
        assert_eq!(f.next_message(), Ok(None));
        assert_eq!(fed("020000000000000b"), Err(TmlFault::BadLength { place: 4 }));
        assert_eq!(fed("01000100"), Err(TmlFault::NotZero { place: 2 }));
        let mut f = Feeder::new();
        let bad = TmlFault::BadType { place: 8 };
        assert_eq!(f.feed(&[3, 0, 0, 0, 0, 0, 0, 0, 4]), Err(bad));
        assert_eq!(f.next_message(), Err(bad));
        assert_eq!(
            fed("020000000000000c495350310000000001001e0005"),
            Err(TmlFault::BadContext { place: 15 })
        );
        assert_eq!(fed("0100000000100001"), Err(TmlFault::TooLong { length: 1_048_577 }));
        assert_eq!(fed("0100000000100000"), Ok(8));
        let mut o = Vec::new();
        crate::hex::decode(b"020000000000000c4953503100000001001e0005", &mut o);
        let mut f = Feeder::new();
        assert_eq!(f.feed(&o), Ok(20));
        assert_eq!(f.next_message(), Ok(Some(Message::Context { interval: 30, factor: 5 })));
    }

    #[test]
    fn any_cuts() {
        let mut stream = Vec::new();
        let mut sizes = Vec::new();
        for i in 0..300usize {
            let n = i * 7919 % 5000;
            sizes.push(n);
            stream.extend_from_slice(&head(1, n as u32));
            stream.extend((0..n).map(|k| (k + i) as u8));
        }
        for cut in [1, 2, 7, 8, 9, 4096, 65_536, 3_000_000] {
            let mut f = Feeder::new();
            let mut got = Vec::new();
            for mut p in stream.chunks(cut) {
                while !p.is_empty() {
                    let n = f.feed(p).unwrap();
                    p = &p[n..];
                    let step = got.len();
                    while let Some(Message::Pdu(b)) = f.next_message().unwrap() {
                        let i = got.len();
                        assert!(b.iter().enumerate().all(|(k, &o)| o == (k + i) as u8));
                        got.push(b.len());
                    }
                    assert!(n > 0 || got.len() > step);
                }
            }
            assert_eq!(got, sizes);
            assert_eq!(f.place(), stream.len() as u64);
        }
    }
}
