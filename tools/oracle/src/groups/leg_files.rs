//! Files of a leg: what the writer and the reader of document 02, Job 1, are asked.

use super::Cases;
use super::good::drawn;
use crate::cases::Case;
use crate::floors::{self, Rng};
use crate::subject::Call;

fn write_case(steps: Vec<u8>, room: usize, old: u8) -> Case {
    Case { steps, sheet: vec![old; room], ..Case::of(Call::LegFileWrite) }
}

fn read_case(file: Vec<u8>) -> Case {
    Case { steps: file, ..Case::of(Call::LegFileRead) }
}

/// Steps as a porter draws them, or any bytes: neither call judges them.
fn any_steps(rng: &mut Rng, length: usize) -> Vec<u8> {
    if rng.one_in(2) {
        return (0..length).map(|_| rng.draw() as u8).collect();
    }
    let mut steps: Vec<u8> = (0..length.div_ceil(8)).flat_map(|_| floors::any_step(rng)).collect();
    steps.truncate(length);
    steps
}

/// Every length of a list from 0 to 150 bytes, with a buffer as long as the file and a byte off; then any lengths.
pub fn writes(rng: Rng, inputs: usize) -> Cases {
    let mut first = rng.clone();
    let full = (0..=150).flat_map(|length| [5, 6, 7].map(|head| (length, length + head)));
    let full = full.map(move |(length, room)| write_case(any_steps(&mut first, length), room, 0xEE));
    Box::new(full.chain(drawn(rng, inputs, |rng| {
        let length = if rng.one_in(2) { 8 * rng.below(19) } else { rng.below(150) };
        let room = if rng.one_in(4) { rng.below(200) } else { length + 5 + rng.below(3) };
        let old = rng.draw() as u8;
        write_case(any_steps(rng, length), room, old)
    })))
}

/// The bytes of a head that are tried at its places, the right one first.
const HEADS: [&[u8]; 6] = [b"LlG", b"Ee\0", b"GgL", &[1, 0, 2], &[0, 1], &[1, 0, 2, 3, 16, 17, 255]];

/// The k-th of all heads.
fn head(mut k: usize) -> [u8; 6] {
    HEADS.map(|bytes| {
        let byte = bytes[k % bytes.len()];
        k /= bytes.len();
        byte
    })
}

/// A file with this head and steps of one byte, as long as is asked.
fn file_of(head: [u8; 6], length: usize, byte: u8) -> Vec<u8> {
    let mut file = head.to_vec();
    file.resize(length, byte);
    file
}

/// Every head of those above with every length from 0 to 24, and every count with every length from 0 to 200.
fn in_full() -> impl Iterator<Item = Case> {
    let heads = HEADS.iter().map(|bytes| bytes.len()).product::<usize>();
    let short = (0..heads).flat_map(|k| (0..=24).map(move |length| file_of(head(k), length, 0xFF)));
    let counted = |count| [b'L', b'E', b'G', 1, 0, count];
    let long = (0..=255).flat_map(move |count| (0..=200).map(move |length| file_of(counted(count), length, 0x40)));
    short.chain(long).map(read_case)
}

/// The bytes that are tried at each place of a short file: two, and three for the count.
fn tried(at: usize) -> &'static [u8] {
    const HEAD: [&[u8]; 6] = [b"LG", b"EL", b"GE", &[1, 0], &[0, 1], &[1, 2, 0]];
    HEAD.get(at).copied().unwrap_or(&[0, 255])
}

/// The k-th file of this length.
fn short_file(length: usize, mut k: usize) -> Vec<u8> {
    let byte = |at| {
        let bytes = tried(at);
        let byte = bytes[k % bytes.len()];
        k /= bytes.len();
        byte
    };
    (0..length).map(byte).collect()
}

fn short_files(length: usize) -> usize {
    (0..length).map(|at| tried(at).len()).product()
}

/// Every file of 0 to 20 bytes of those above, or every n-th of them where fewer inputs are asked for.
fn short(inputs: usize) -> impl Iterator<Item = Case> {
    let total: usize = (0..=20).map(short_files).sum();
    let all = (0..=20).flat_map(|length| (0..short_files(length)).map(move |k| read_case(short_file(length, k))));
    all.step_by((total / inputs.max(1)).max(1))
}

/// A good file, with up to two bytes spoiled and now and then another length.
fn nearly_good(rng: &mut Rng) -> Vec<u8> {
    let count = 1 + rng.below(17);
    let mut file = vec![b'L', b'E', b'G', 1, 0, count as u8];
    file.extend(any_steps(rng, 8 * count));
    for _ in 0..rng.below(3) {
        let at = if rng.one_in(2) { rng.below(6) } else { rng.below(file.len()) };
        file[at] = if rng.one_in(2) { rng.draw() as u8 } else { rng.pick(&[0, 1, 16, 17]) };
    }
    if rng.one_in(3) {
        let length = if rng.one_in(2) { file.len() - 1 + rng.below(3) } else { rng.below(200) };
        file.resize(length, rng.draw() as u8);
    }
    file
}

pub fn reads(rng: Rng, inputs: usize) -> Cases {
    Box::new(in_full().chain(short(inputs)).chain(drawn(rng, inputs, |rng| {
        let any = |rng: &mut Rng| (0..rng.below(200)).map(|_| rng.draw() as u8).collect();
        read_case(if rng.one_in(8) { any(rng) } else { nearly_good(rng) })
    })))
}
