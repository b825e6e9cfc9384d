// The work of bench_journal in plain Rust with std alone, to compare it with: the same words, the
// same octets in the file and the same calls of it, and an answer in the same form. Entries are
// frames alone.
use std::fs::{File, OpenOptions};
use std::os::unix::fs::FileExt;
use std::path::Path;
use std::{env, io};

const HEADER: &[u8; 8] = b"SLEA\0\0\0\x01";
const OPEN: u8 = 0xa5;
const CLOSED: u8 = 0;

struct Time {
    days: u16,
    millis: u32,
    micros: u16,
}

impl Time {
    /// As a moment in microseconds, where it names one.
    fn moment(&self) -> Option<u64> {
        if self.millis >= 86_400_000 || self.micros >= 1_000 {
            return None;
        }
        let millis = u64::from(self.days) * 86_400_000 + u64::from(self.millis);
        Some(millis * 1_000 + u64::from(self.micros))
    }
}

struct Frame {
    ert: Time,
    quality: u8,
    antenna: Vec<u8>,
    lost: u32,
    octets: Vec<u8>,
}

fn bad(place: usize) -> io::Error {
    io::Error::new(io::ErrorKind::InvalidData, format!("damaged at octet {place}"))
}

fn write_frame(frame: &Frame, into: &mut Vec<u8>) {
    into.extend_from_slice(&[1, 0]);
    into.extend_from_slice(&frame.ert.days.to_be_bytes());
    into.extend_from_slice(&frame.ert.millis.to_be_bytes());
    into.extend_from_slice(&frame.ert.micros.to_be_bytes());
    into.push(frame.quality);
    into.push(frame.antenna.len() as u8);
    into.extend_from_slice(&frame.antenna);
    into.extend_from_slice(&frame.lost.to_be_bytes());
    into.extend_from_slice(&(frame.octets.len() as u32).to_be_bytes());
    into.extend_from_slice(&frame.octets);
}

fn frame_length(frame: &Frame) -> usize {
    20 + frame.antenna.len() + frame.octets.len()
}

/// Reads fields from a file, one after another.
struct Fields<'a> {
    file: &'a [u8],
    place: usize,
}

impl<'a> Fields<'a> {
    fn octets(&mut self, count: usize) -> io::Result<&'a [u8]> {
        let octets = self.file.get(self.place..self.place + count).ok_or(bad(self.file.len()))?;
        self.place += count;
        Ok(octets)
    }

    fn array<const N: usize>(&mut self) -> io::Result<[u8; N]> {
        Ok(self.octets(N)?.try_into().unwrap())
    }

    /// A number of one octet in this range.
    fn octet(&mut self, range: std::ops::RangeInclusive<u8>) -> io::Result<u8> {
        let place = self.place;
        let [octet] = self.array()?;
        if range.contains(&octet) { Ok(octet) } else { Err(bad(place)) }
    }

    /// A number of four octets in this range.
    fn number(&mut self, range: std::ops::RangeInclusive<u32>) -> io::Result<u32> {
        let place = self.place;
        let number = u32::from_be_bytes(self.array()?);
        if range.contains(&number) { Ok(number) } else { Err(bad(place)) }
    }

    fn time(&mut self) -> io::Result<Time> {
        let place = self.place;
        self.octet(0..=0)?;
        let time = Time {
            days: u16::from_be_bytes(self.array()?),
            millis: u32::from_be_bytes(self.array()?),
            micros: u16::from_be_bytes(self.array()?),
        };
        if time.moment().is_some() { Ok(time) } else { Err(bad(place)) }
    }

    fn frame(&mut self) -> io::Result<Frame> {
        self.octet(1..=1)?;
        let ert = self.time()?;
        let quality = self.octet(0..=2)?;
        let size = self.octet(1..=16)?;
        let antenna = self.octets(size as usize)?.to_vec();
        let lost = self.number(0..=16_777_215)?;
        let size = self.number(1..=65_536)?;
        let octets = self.octets(size as usize)?.to_vec();
        Ok(Frame { ert, quality, antenna, lost, octets })
    }
}

/// The frames of a file, which are in the order of their times, and how many of its octets are
/// used.
fn read(file: &[u8]) -> io::Result<(Vec<Frame>, usize)> {
    if file.get(..8) != Some(HEADER.as_slice()) {
        return Err(bad(0));
    }
    let mut fields = Fields { file, place: 8 };
    let mut frames = Vec::new();
    let mut last = None;
    while fields.octet(0..=255)? == OPEN {
        let size = u32::from_be_bytes(fields.array()?) as usize;
        let count = u16::from_be_bytes(fields.array()?);
        let stated = fields.place + size;
        if !(1..=256).contains(&count) {
            return Err(bad(fields.place - 2));
        }
        for _ in 0..count {
            let place = fields.place;
            let frame = fields.frame()?;
            let moment = frame.ert.moment();
            if last > moment {
                return Err(bad(place + 1));
            }
            last = moment;
            frames.push(frame);
        }
        if fields.place != stated {
            return Err(bad(stated.min(fields.place)));
        }
    }
    Ok((frames, fields.place))
}

fn open(path: &str, is_new: bool) -> io::Result<File> {
    let file = OpenOptions::new().read(true).write(true).create(is_new).open(path)?;
    file.try_lock()?;
    if is_new {
        let folder = Path::new(path).parent().filter(|folder| *folder != Path::new(""));
        File::open(folder.unwrap_or(Path::new(".")))?.sync_all()?;
    }
    Ok(file)
}

fn write_synced(file: &File, place: u64, octets: &[u8]) -> io::Result<()> {
    file.write_all_at(octets, place)?;
    file.sync_all()
}

fn append(path: &str, entries: usize, batches: usize) -> io::Result<()> {
    let frame = || Frame {
        ert: Time { days: 20_000, millis: 1_000, micros: 0 },
        quality: 0,
        antenna: b"A".to_vec(),
        lost: 0,
        octets: vec![0x5a; 1_115],
    };
    let batch: Vec<Frame> = (0..entries).map(|_| frame()).collect();
    let file = open(path, true)?;
    write_synced(&file, 0, b"SLEA\0\0\0\x01\0")?;
    let mut gate = 8;
    let mut octets = Vec::new();
    for _ in 0..batches {
        octets.clear();
        let size: usize = batch.iter().map(frame_length).sum();
        octets.extend_from_slice(&(size as u32).to_be_bytes());
        octets.extend_from_slice(&(entries as u16).to_be_bytes());
        for frame in &batch {
            write_frame(frame, &mut octets);
        }
        octets.push(CLOSED);
        write_synced(&file, gate + 1, &octets)?;
        write_synced(&file, gate, &[OPEN])?;
        gate += octets.len() as u64;
    }
    println!("{batches} batches of {entries} appended, {} octets used", gate + 1);
    Ok(())
}

fn recover(path: &str) -> io::Result<()> {
    let file = open(path, false)?;
    file.sync_all()?;
    let mut octets = vec![0; file.metadata()?.len() as usize];
    file.read_exact_at(&mut octets, 0)?;
    let (frames, used) = read(&octets)?;
    println!("{} entries recovered, {used} octets used", frames.len());
    Ok(())
}

fn main() -> io::Result<()> {
    let words: Vec<String> = env::args().skip(1).collect();
    match words.iter().map(String::as_str).collect::<Vec<_>>()[..] {
        ["append", path, entries, batches] => {
            append(path, entries.parse().unwrap(), batches.parse().unwrap())
        }
        ["recover", path] => recover(path),
        _ => Err(io::ErrorKind::InvalidInput.into()),
    }
}
