//! What plain, fast Rust without proofs does on the provider's hot paths: std alone, no `unsafe`,
//! one thread. The scripts of bench/ time the proved program beside it.
//!
//! `drill` reads frame, loss, production, mark and start lines, comments and empty lines; any other
//! line is a bad one. It has no configuration, no connections and no faults. Each entry is encoded
//! as a batch of its own into a file image in memory. Frames are kept in one pool; a START finds
//! its first one by binary search.

mod archive;
mod cds;
mod desk;
mod hex;
mod make;
mod raf;
mod script;
mod sha1;
mod tml;

use archive::{Entry, FileFault, Order, Store};
use std::fs::{self, File, OpenOptions};
use std::hint::black_box;
use std::io::{self, BufWriter, Read, Write};
use std::os::unix::fs::FileExt;
use std::process::ExitCode;
use std::time::Instant;

/// A line on standard output, whose end of reading isn't of interest.
macro_rules! say {
    ($($t:tt)*) => {{
        let _ = writeln!(io::stdout(), $($t)*);
    }};
}

const USAGE: &str = "usage
  plain drill [--capacity N] [--image FILE]   (script on standard input)
  plain rehearse N
  plain decode FILE [--repeat R]
  plain encode N SIZE [--repeat R]
  plain stream FILE N SIZE
  plain append FILE N SIZE [--batch B] [--no-sync | --data-sync]
  plain recover FILE [--repeat R]
  plain script N SIZE";

type Answer = Result<u8, String>;

fn main() -> ExitCode {
    let words: Vec<String> = std::env::args().skip(1).collect();
    let Some((words, options)) = split(&words) else {
        return usage();
    };
    let answer = match words[..] {
        ["drill"] => drill(&options),
        ["rehearse", n] => with(n, 1, 20_000, rehearse),
        ["decode", file] => decode(file, options.repeat),
        ["encode", n, size] => two(n, size, |n, size| encode(n, size, options.repeat)),
        ["stream", file, n, size] => two(n, size, |n, size| stream(file, n, size)),
        ["append", file, n, size] => two(n, size, |n, size| append(file, n, size, &options)),
        ["recover", file] => recover(file, options.repeat),
        ["script", n, size] => two(n, size, write_script),
        _ => return usage(),
    };
    match answer {
        Ok(status) => ExitCode::from(status),
        Err(text) => {
            say!("{text}");
            ExitCode::from(1)
        }
    }
}

fn usage() -> ExitCode {
    say!("{USAGE}");
    ExitCode::from(2)
}

struct Options<'a> {
    repeat: u64,
    batch: usize,
    capacity: u64,
    image: Option<&'a str>,
    sync: Sync,
}

#[derive(Clone, Copy, Debug, PartialEq)]
enum Sync {
    All,
    Data,
    None,
}

fn split(all: &[String]) -> Option<(Vec<&str>, Options<'_>)> {
    let mut words = Vec::new();
    let mut o =
        Options { repeat: 1, batch: 1, capacity: archive::CAPACITY, image: None, sync: Sync::All };
    let mut all = all.iter().map(String::as_str);
    while let Some(w) = all.next() {
        match w {
            "--repeat" => o.repeat = all.next()?.parse().ok().filter(|&r| r > 0)?,
            "--batch" => o.batch = all.next()?.parse().ok().filter(|b| (1..=256).contains(b))?,
            "--capacity" => o.capacity = all.next()?.parse().ok()?,
            "--image" => o.image = Some(all.next()?),
            "--no-sync" => o.sync = Sync::None,
            "--data-sync" => o.sync = Sync::Data,
            _ if w.starts_with("--") => return None,
            _ => words.push(w),
        }
    }
    Some((words, o))
}

fn with(n: &str, least: u64, most: u64, call: impl FnOnce(u64) -> Answer) -> Answer {
    match n.parse() {
        Ok(n) if (least..=most).contains(&n) => call(n),
        _ => Err(format!("a number from {least} to {most} is wanted: {n}")),
    }
}

fn two(n: &str, size: &str, call: impl FnOnce(u64, usize) -> Answer) -> Answer {
    with(n, 1, archive::MOST_ENTRIES, |n| {
        with(size, 1, archive::LONGEST_FRAME as u64, |size| call(n, size as usize))
    })
}

fn told(what: &str) -> impl Fn(io::Error) -> String + '_ {
    move |e| format!("{what}: {e}")
}

/// One line of measured numbers.
fn measured(what: &str, seconds: f64, items: u64, octets: u64) {
    say!(
        "{what} seconds {seconds:.6} items/s {:.0} MB/s {:.1}",
        items as f64 / seconds,
        octets as f64 / seconds / 1e6
    );
}

// ---------------------------------------------------------------- scripts and rehearsals

fn drill(options: &Options) -> Answer {
    let (status, image) = script::drill(io::stdin().lock(), io::stdout().lock(), options.capacity);
    if let Some(path) = options.image {
        fs::write(path, image).map_err(told(path))?;
    }
    Ok(status)
}

fn rehearse(n: u64) -> Answer {
    let mut store = Store::new(archive::CAPACITY, n as usize * 1116);
    let mut frame = Vec::new();
    let mut stored = 0u64;
    for i in 0..n {
        make::octets(i, 1115, &mut frame);
        let entry = Entry::Frame {
            time: make::time(i),
            quality: make::quality(i),
            antenna: &make::ANTENNA,
            lost: 0,
            octets: &frame,
        };
        stored += store.offer(&entry).is_ok() as u64;
    }
    let last = make::time(n - 1);
    let _ = store.offer(&Entry::Seal { at: last });

    let mut hash = sha1::Sha1::new();
    let (mut sent, mut buffers, mut ends) = (0, 0, 0);
    let start = make::time(0).moment().unwrap();
    desk::deliver(&store, start, last.moment().unwrap(), 0, |message, frames| {
        hash.update(message);
        sent += frames;
        match frames {
            0 => ends += 1,
            _ => buffers += 1,
        }
    });
    let mut digest = Vec::new();
    hex::encode(&hash.finish(), &mut digest);
    let digest = String::from_utf8(digest).unwrap();
    say!("stored {stored}\nsent {sent}\nbuffers {buffers}\nends {ends}\ndigest {digest}");
    Ok(0)
}

// ---------------------------------------------------------------- transfer buffers

#[derive(Default, PartialEq)]
struct Counts {
    messages: u64,
    buffers: u64,
    frames: u64,
    notices: u64,
    octets: u64,
    others: u64,
    /// Mixed from the decoded fields, so that none of them is dead.
    mix: u64,
}

fn decode(path: &str, repeat: u64) -> Answer {
    let file = fs::read(path).map_err(told(path))?;
    let mut counts = Counts::default();
    let begin = Instant::now();
    for _ in 0..repeat {
        counts = match decode_once(black_box(&file)) {
            Ok(c) => c,
            Err(text) => {
                say!("{text}");
                return Ok(5);
            }
        };
    }
    let seconds = begin.elapsed().as_secs_f64();
    let Counts { messages, buffers, frames, notices, octets, others, mix } = counts;
    say!("messages {messages} buffers {buffers} frames {frames} notices {notices} others {others} octets {octets} mix {mix:x}");
    say!("repeat {repeat} file {}", file.len());
    measured("decode", seconds, repeat * frames, repeat * file.len() as u64);
    Ok(0)
}

fn decode_once(file: &[u8]) -> Result<Counts, String> {
    let mut feeder = tml::Feeder::new();
    let mut c = Counts::default();
    for mut piece in file.chunks(65_536) {
        while !piece.is_empty() {
            let n = feeder.feed(piece).map_err(|f| format!("bad message {f:?}"))?;
            piece = &piece[n..];
            loop {
                let place = feeder.place();
                let Some(message) = feeder.next_message().map_err(|f| format!("{f:?}"))? else {
                    break;
                };
                c.messages += 1;
                match message {
                    tml::Message::Pdu(body) if body.first() == Some(&0xa8) => {
                        c.buffers += 1;
                        raf::read_buffer(body, |item| count(&mut c, &item))
                            .map_err(|f| format!("bad message {place} {f:?}"))?;
                    }
                    _ => c.others += 1,
                }
            }
        }
    }
    if feeder.holds_part() {
        return Err(format!("bad message {} ends inside", feeder.place()));
    }
    Ok(c)
}

fn count(c: &mut Counts, item: &raf::Item) {
    match item {
        raf::Item::Frame { time, antenna, continuity, quality, note, octets, credentials } => {
            let (raf::Antenna::Global(a) | raf::Antenna::Local(a)) = antenna;
            let used = match credentials {
                raf::Credentials::Unused => 0,
                raf::Credentials::Used(u) => u.len(),
            };
            c.frames += 1;
            c.octets += octets.len() as u64;
            let mix = time.millis as u64 + time.days as u64 + *continuity as u64 + *quality as u64;
            let lengths = a.len() + note.map_or(0, <[u8]>::len) + used;
            c.mix = c.mix.wrapping_mul(31).wrapping_add(mix).wrapping_add(lengths as u64);
        }
        other => {
            black_box(other);
            c.notices += 1;
        }
    }
}

/// Gives the messages of the frames 0 to n - 1 in buffers of ten, each in the same memory.
fn buffers(n: u64, pool: &make::Pool, mut each: impl FnMut(&[u8])) {
    let mut message = Vec::new();
    let mut held = Vec::with_capacity(10);
    for i in 0..n {
        held.push(raf::Sent {
            time: make::time(i),
            antenna: &make::ANTENNA,
            continuity: if i == 0 { -1 } else { 0 },
            quality: make::quality(i),
            octets: pool.frame(i),
        });
        if held.len() == 10 || i == n - 1 {
            message.clear();
            raf::write_buffer(&held, &mut message);
            each(&message);
            held.clear();
        }
    }
}

fn encode(n: u64, size: usize, repeat: u64) -> Answer {
    let pool = make::Pool::new(size);
    let mut octets = 0;
    let begin = Instant::now();
    for _ in 0..repeat {
        octets = 0;
        buffers(n, &pool, |m| octets += black_box(m).len() as u64);
    }
    let seconds = begin.elapsed().as_secs_f64();
    say!("frames {n} octets {octets} repeat {repeat}");
    measured("encode", seconds, repeat * n, repeat * octets);
    Ok(0)
}

fn stream(path: &str, n: u64, size: usize) -> Answer {
    let mut out = BufWriter::with_capacity(1 << 20, File::create(path).map_err(told(path))?);
    let mut result = Ok(());
    buffers(n, &make::Pool::new(size), |m| {
        if result.is_ok() {
            result = out.write_all(m);
        }
    });
    result
        .and_then(|()| out.write_all(&raf::END_OF_DATA))
        .and_then(|()| out.flush())
        .map_err(told(path))?;
    Ok(0)
}

// ---------------------------------------------------------------- the archive in a file

fn append(path: &str, n: u64, size: usize, options: &Options) -> Answer {
    let pool = make::Pool::new(size);
    let mut file = OpenOptions::new()
        .read(true)
        .write(true)
        .create(true)
        .truncate(false)
        .open(path)
        .map_err(told(path))?;
    let sync = |file: &File| match options.sync {
        Sync::All => file.sync_all(),
        Sync::Data => file.sync_data(),
        Sync::None => Ok(()),
    };

    // Create or recover.
    let mut image = Vec::new();
    file.read_to_end(&mut image).map_err(told(path))?;
    if image.is_empty() {
        image.extend_from_slice(&archive::HEADER);
        image.push(archive::CLOSED);
        file.write_all_at(&image, 0).and_then(|()| sync(&file)).map_err(told(path))?;
    }
    let found = match archive::scan(&image, |_, _| ()) {
        Ok(f) => f,
        Err(f) => return refused(f),
    };
    drop(image);
    let mut used = found.used as u64;
    let first = first_millis(&found.order);

    let mut batch = Vec::new();
    let (mut batches, mut done) = (0u64, 0u64);
    let begin = Instant::now();
    while done < n {
        let upto = (done + options.batch as u64).min(n);
        batch.clear();
        let entries = (done..upto).map(|i| Entry::Frame {
            time: cds::Cds::of_millis(first + 10 * i),
            quality: make::quality(i),
            antenna: &make::ANTENNA,
            lost: 0,
            octets: pool.frame(i),
        });
        archive::write_batch(entries, &mut batch);
        if used + batch.len() as u64 > archive::CAPACITY
            || found.entries + upto > archive::MOST_ENTRIES
        {
            say!("full after {done} entries");
            break;
        }
        store(&file, &batch, used, sync).map_err(told(path))?;
        used += batch.len() as u64;
        batches += 1;
        done = upto;
    }
    let seconds = begin.elapsed().as_secs_f64();
    say!("entries {done} batches {batches} used {used} sync {:?}", options.sync);
    measured("append", seconds, done, used - found.used as u64);
    Ok(0)
}

/// The four device calls of a batch. The present gate is at `used` - 1.
fn store(
    file: &File,
    batch: &[u8],
    used: u64,
    sync: impl Fn(&File) -> io::Result<()>,
) -> io::Result<()> {
    file.write_all_at(batch, used)?;
    sync(file)?;
    file.write_all_at(&[archive::OPEN], used - 1)?;
    sync(file)
}

/// A time that the archive's order admits.
fn first_millis(order: &Order) -> u64 {
    let last = order.last_frame.max(order.last_seal);
    last.map_or(make::FIRST_DAY, |m| m.millis_up() + 10)
}

fn refused(fault: FileFault) -> Answer {
    let (FileFault::NotJournal { place } | FileFault::Damaged { place }) = fault;
    say!("archive refused {place}");
    Ok(5)
}

/// Of an entry, what an index over the file needs.
#[allow(dead_code)]
struct Indexed {
    place: usize,
    moment: Option<cds::Moment>,
    lost: u32,
    kind: u8,
    quality: u8,
}

fn recover(path: &str, repeat: u64) -> Answer {
    let (mut reading, mut scanning) = (0.0, 0.0);
    let mut found = archive::Found::default();
    let mut indexed = 0;
    for _ in 0..repeat {
        let begin = Instant::now();
        let file = File::open(path).map_err(told(path))?;
        file.sync_all().map_err(told(path))?;
        let mut image = Vec::new();
        let size = file.metadata().map_err(told(path))?.len();
        image.reserve_exact(size as usize + 1);
        (&file).read_to_end(&mut image).map_err(told(path))?;
        let read = Instant::now();
        let mut index = Vec::new();
        let result = archive::scan(&image, |place, entry| {
            index.push(match entry {
                Entry::Frame { time, quality, lost, .. } => {
                    Indexed { place, moment: time.moment(), lost, kind: 1, quality }
                }
                Entry::Loss { at, .. } => {
                    Indexed { place, moment: at.moment(), lost: 0, kind: 2, quality: 0 }
                }
                Entry::Production { .. } => {
                    Indexed { place, moment: None, lost: 0, kind: 3, quality: 0 }
                }
                Entry::Seal { at } => {
                    Indexed { place, moment: at.moment(), lost: 0, kind: 4, quality: 0 }
                }
            });
        });
        scanning += read.elapsed().as_secs_f64();
        reading += (read - begin).as_secs_f64();
        indexed = black_box(&index).len();
        found = match result {
            Ok(f) => f,
            Err(f) => return refused(f),
        };
    }
    say!("entries {indexed} batches {} used {} repeat {repeat}", found.batches, found.used);
    let (items, octets) = (repeat * indexed as u64, repeat * found.used as u64);
    measured("read", reading, items, octets);
    measured("validate", scanning, items, octets);
    measured("recover", reading + scanning, items, octets);
    Ok(0)
}

// ---------------------------------------------------------------- scripts that are made

fn write_script(n: u64, size: usize) -> Answer {
    let mut out = BufWriter::with_capacity(1 << 20, io::stdout().lock());
    let mut total = 0;
    let mut line = Vec::new();
    let mut frame = Vec::new();
    for i in 0..n {
        make::octets(i, size, &mut frame);
        let t = make::time(i);
        line.clear();
        let head = format!("frame {}/{}/0 {} 41 0 ", t.days, t.millis, make::quality(i));
        line.extend_from_slice(head.as_bytes());
        hex::encode(&frame, &mut line);
        line.push(b'\n');
        total += line.len();
        out.write_all(&line).map_err(told("output"))?;
    }
    let last = make::time(n - 1);
    let (d, m) = (last.days, last.millis);
    let tail = format!("mark {d}/{m}/0\nstart 20000/0/0 {d}/{m}/0 0\n");
    total += tail.len();
    out.write_all(tail.as_bytes()).and_then(|()| out.flush()).map_err(told("output"))?;
    if total > script::LONGEST {
        eprintln!("note: {total} octets, more than the {} that drill takes", script::LONGEST);
    }
    Ok(0)
}
