//! The desk: an offline RAF delivery with buffers of two items.

use crate::archive::{Store, MOST_LOST};
use crate::cds::Moment;
use crate::raf::{self, Sent};

const SIZE: usize = 2;
/// A buffer is full too where it holds so many octets of frames.
const FULL_OCTETS: usize = 524_288;

/// Hands every message of one START to `sink`, with the number of frames in it:
/// first the buffers, then, where the stop is closed, the end of data with none.
pub fn deliver(
    store: &Store,
    start: Moment,
    stop: Moment,
    quality: u8,
    mut sink: impl FnMut(&[u8], usize),
) {
    let from = store.frames.partition_point(|f| f.moment < start);
    let mut held: Vec<Sent> = Vec::with_capacity(SIZE);
    let mut octets = 0;
    let mut message = Vec::new();
    let mut lost = 0u64;
    let mut first = true;

    for f in &store.frames[from..] {
        if f.moment > stop {
            break;
        }
        lost += f.lost as u64;
        if quality != 2 && f.quality != quality {
            continue;
        }
        let continuity = if first { -1 } else { lost.min(MOST_LOST as u64) as i32 };
        first = false;
        lost = 0;
        let sent = store.sent(f, continuity);
        octets += sent.octets.len();
        held.push(sent);
        if held.len() == SIZE || octets >= FULL_OCTETS {
            hand_over(&mut held, &mut message, &mut sink);
            octets = 0;
        }
    }
    if store.order.closes(stop) {
        if !held.is_empty() {
            hand_over(&mut held, &mut message, &mut sink);
        }
        sink(&raf::END_OF_DATA, 0);
    }
}

fn hand_over(held: &mut Vec<Sent>, message: &mut Vec<u8>, sink: &mut impl FnMut(&[u8], usize)) {
    message.clear();
    raf::write_buffer(held, message);
    sink(message, held.len());
    held.clear();
}
