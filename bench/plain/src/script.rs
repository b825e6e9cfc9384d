//! Scripts of the lines that the desk needs, and `drill`.

use crate::archive::{Entry, Refusal, Store, MOST_LOST};
use crate::cds::{Cds, Rest, DAY};
use crate::{desk, hex};
use std::io::{BufRead, Read, Write};

pub const LONGEST: usize = 16_777_216;

enum Line<'a> {
    Skip,
    Offer(Entry<'a>),
    Desk { start: Cds, stop: Cds, quality: u8 },
}

/// Octets of the present line's HEX words, kept from line to line.
#[derive(Default)]
struct Scratch {
    antenna: Vec<u8>,
    octets: Vec<u8>,
}

/// None where the line is outside the grammar.
fn parse<'a>(line: &[u8], scratch: &'a mut Scratch) -> Option<Line<'a>> {
    if line.is_empty() || line[0] == b'#' {
        return Some(Line::Skip);
    }
    let mut words = Words { rest: Some(line) };
    let mut word = || words.next();
    let parsed = match word()? {
        b"frame" => {
            let time = time(word()?)?;
            let quality = number(word()?, 2)? as u8;
            scratch.antenna.clear();
            let antenna = word()?;
            if antenna.len() > 32 || !hex::decode(antenna, &mut scratch.antenna) {
                return None;
            }
            let lost = number(word()?, MOST_LOST as u64)? as u32;
            scratch.octets.clear();
            if !hex::decode(words.rest.take()?, &mut scratch.octets) {
                return None;
            }
            Line::Offer(Entry::Frame {
                time,
                quality,
                antenna: &scratch.antenna,
                lost,
                octets: &scratch.octets,
            })
        }
        b"loss" => Line::Offer(Entry::Loss {
            at: time(word()?)?,
            carrier: number(word()?, 3)? as u8,
            subcarrier: number(word()?, 3)? as u8,
            symbol: number(word()?, 3)? as u8,
        }),
        b"production" => Line::Offer(Entry::Production { status: number(word()?, 2)? as u8 }),
        b"mark" => Line::Offer(Entry::Seal { at: time(word()?)? }),
        b"start" => Line::Desk {
            start: time(word()?)?,
            stop: time(word()?)?,
            quality: number(word()?, 2)? as u8,
        },
        _ => return None,
    };
    match words.rest {
        None => Some(parsed),
        Some(_) => None,
    }
}

struct Words<'a> {
    rest: Option<&'a [u8]>,
}

impl<'a> Words<'a> {
    fn next(&mut self) -> Option<&'a [u8]> {
        let rest = self.rest?;
        let Some(k) = rest.iter().position(|&c| c == b' ') else {
            return self.rest.take();
        };
        self.rest = Some(&rest[k + 1..]);
        Some(&rest[..k])
    }
}

/// A decimal number without sign and leading zeros.
fn number(word: &[u8], greatest: u64) -> Option<u64> {
    if word.is_empty() || word.len() > 10 || word.len() > 1 && word[0] == b'0' {
        return None;
    }
    let mut n = 0u64;
    for &c in word {
        n = n * 10 + c.is_ascii_digit().then(|| (c - b'0') as u64)?;
    }
    (n <= greatest).then_some(n)
}

fn time(word: &[u8]) -> Option<Cds> {
    let mut parts = word.split(|&c| c == b'/');
    let days = number(parts.next()?, u16::MAX as u64)? as u16;
    let millis = number(parts.next()?, DAY - 1)? as u32;
    let last = parts.next()?;
    if parts.next().is_some() {
        return None;
    }
    let rest = match last.strip_suffix(b"p") {
        Some(p) => Rest::Picos(number(p, 999_999_999)? as u32),
        None => Rest::Micros(number(last, 999)? as u16),
    };
    Some(Cds { days, millis, rest })
}

/// Collects the transcript and writes it in large pieces.
struct Transcript<W: Write> {
    held: Vec<u8>,
    output: W,
    failed: bool,
}

impl<W: Write> Transcript<W> {
    fn sent(&mut self, message: &[u8]) {
        self.held.extend_from_slice(b"sent 0 ");
        hex::encode(message, &mut self.held);
        self.end_line();
    }

    fn line(&mut self, text: std::fmt::Arguments) {
        let _ = self.held.write_fmt(text);
        self.end_line();
    }

    fn end_line(&mut self) {
        self.held.push(b'\n');
        if self.held.len() >= 65_536 {
            self.flush();
        }
    }

    fn flush(&mut self) {
        self.failed = self.failed || self.output.write_all(&self.held).is_err();
        self.held.clear();
    }
}

/// The status, and the archive's file image at the end.
pub fn drill(input: impl Read, output: impl Write, capacity: u64) -> (u8, Vec<u8>) {
    let mut out = Transcript { held: Vec::with_capacity(1 << 18), output, failed: false };
    let (mut status, image) = match script(input) {
        Ok(script) => run(&script, &mut out, capacity),
        Err((status, line)) => {
            out.line(format_args!("{line}"));
            (status, Vec::new())
        }
    };
    out.flush();
    out.failed = out.failed || out.output.flush().is_err();
    if out.failed && status != 6 && status != 11 {
        status = 7;
    }
    (status, image)
}

fn script(input: impl Read) -> Result<Vec<u8>, (u8, &'static str)> {
    let mut script = Vec::with_capacity(LONGEST + 1);
    if input.take(LONGEST as u64 + 1).read_to_end(&mut script).is_err() {
        return Err((6, "read fault"));
    }
    if script.len() > LONGEST {
        return Err((11, "input too long"));
    }
    Ok(script)
}

fn run<W: Write>(script: &[u8], out: &mut Transcript<W>, capacity: u64) -> (u8, Vec<u8>) {
    let mut store = Store::new(capacity, script.len() / 2);
    let mut scratch = Scratch::default();
    let mut status = 0;
    let mut text = script;
    let mut number = 0;
    while !text.is_empty() {
        // A slice's skip_until is a memchr, and can't fail.
        let line = text;
        let taken = text.skip_until(b'\n').unwrap_or(0);
        let line = line[..taken].strip_suffix(b"\n").unwrap_or(&line[..taken]);
        number += 1;
        match parse(line, &mut scratch) {
            Some(Line::Skip) => {}
            Some(Line::Offer(entry)) => match store.offer(&entry) {
                Ok(()) => {}
                Err(Refusal::Backward) => out.line(format_args!("backward")),
                Err(Refusal::TooLong) => out.line(format_args!("too long")),
                Err(Refusal::Full { need, free }) => {
                    out.line(format_args!("full {need} {free}"));
                    status = 9;
                }
            },
            Some(Line::Desk { start, stop, quality }) => {
                let start = start.moment().expect("parsed");
                let stop = stop.moment().expect("parsed");
                if stop < start {
                    out.line(format_args!("refused 3"));
                } else {
                    desk::deliver(&store, start, stop, quality, |message, _| out.sent(message));
                }
            }
            None => {
                out.line(format_args!("bad line {number}"));
                return (3, store.image);
            }
        }
    }
    (status, store.image)
}

#[cfg(test)]
mod tests {
    use super::*;

    fn good(line: &str) -> bool {
        parse(line.as_bytes(), &mut Scratch::default()).is_some()
    }

    #[test]
    fn grammar() {
        for l in [
            "",
            "# any thing",
            "frame 20000/1000/0 0 41 0 0010a1",
            "frame 65535/86399999/999 2 000102030405060708090a0b0c0d0e0F 16777215 00",
            "frame 0/0/999999999p 1 41 0 FF",
            "frame 0/0/0p 1 41 0 FF",
            "loss 1/2/3 0 3 3",
            "production 2",
            "mark 0/0/0",
            "start 0/0/0 0/0/0 2",
        ] {
            assert!(good(l), "{l}");
        }
        for l in [
            " ",
            "fly",
            "frame",
            "frame 20000/1000/0 0 41 0",
            "frame 20000/1000/0 0 41 0 ",
            "frame 20000/1000/0 0 41 0 0010a1 ",
            "frame  20000/1000/0 0 41 0 0010a1",
            "frame 20000/1000/0 0 41 0 0010a",
            "frame 20000/1000/0 0 41 0 0010ag",
            "frame 20000/1000/0 3 41 0 0010a1",
            "frame 20000/1000/0 00 41 0 0010a1",
            "frame 20000/1000/0 0 4 0 0010a1",
            "frame 20000/1000/0 0 000102030405060708090a0b0c0d0e0f10 0 00",
            "frame 20000/1000/0 0 41 16777216 00",
            "frame 20000/1000/0 0 41 +1 00",
            "frame 65536/0/0 0 41 0 00",
            "frame 0/86400000/0 0 41 0 00",
            "frame 0/0/1000 0 41 0 00",
            "frame 0/0/1000000000p 0 41 0 00",
            "frame 0/0/p 0 41 0 00",
            "frame 0/0/0P 0 41 0 00",
            "frame 0/0 0 41 0 00",
            "frame 0/0/0/0 0 41 0 00",
            "frame 01/0/0 0 41 0 00",
            "mark 0/0/0\r",
            "mark none",
            "start 0/0/0 0/0/0 3",
            "start none none 2",
            "loss 1/2/3 0 4 3",
            "production 3",
            "production 18446744073709551616",
            "Mark 0/0/0",
        ] {
            assert!(!good(l), "{l}");
        }
    }
}
