//! Editing: a block put before the data of a file through the library, against plain Rust that moves the same bytes as far.
mod timing;

use std::hint::black_box;

unsafe extern "C" {
    fn kutsvame_carry(
        buffer: *mut u8,
        room: usize,
        size: usize,
        key: u32,
        body: *const u8,
        length: usize,
    ) -> u8;
}

const START: usize = 104;
const CELLS: usize = 30;
const BINS: usize = 500;
const SIZE: usize = START + CELLS * BINS * 40;
const KEY: &[u8; 4] = b"FILL";
const BODY: &[u8; 4] = &[1, 2, 2, 4];
/// The bytes of the block, and so how far the data move.
const MOVE: usize = 8 + BODY.len();
/// The bytes of the buffer behind the file with the block.
const REST: usize = 1000;
const REPEATS: u32 = 50;

/// Writes the header's extents and the size of its section of blocks, which ends at `start`.
fn put_extents(buffer: &mut [u8], start: usize) {
    for end in [10, 16, 24, 72, 100] {
        buffer[end - 4..end].copy_from_slice(&((start - end) as u32).to_be_bytes());
    }
    buffer[100..104].copy_from_slice(&((start - START) as u32).to_be_bytes());
}

/// A buffer with a file of version 6 with quality and no block, whose data, like the rest of the buffer, are pseudo-random.
fn sample() -> Vec<u8> {
    let mut buffer = vec![0; START];
    buffer[0..2].copy_from_slice(&6u16.to_be_bytes());
    buffer[10..12].copy_from_slice(&2u16.to_be_bytes());
    buffer[52..56].copy_from_slice(&(BINS as u32).to_be_bytes());
    buffer[56..60].copy_from_slice(&(CELLS as u32).to_be_bytes());
    buffer[88..92].copy_from_slice(&3u32.to_be_bytes());
    put_extents(&mut buffer, START);
    let mut state = 1u32;
    while buffer.len() < SIZE + MOVE + REST {
        state = state.wrapping_mul(1_664_525).wrapping_add(1_013_904_223);
        buffer.push((state >> 24) as u8);
    }
    buffer
}

/// Puts the block behind the header through the library; answers 0, or the number of the refusal.
fn ours(buffer: &mut [u8], size: usize) -> usize {
    let (room, key) = (buffer.len(), u32::from_be_bytes(*KEY));
    let refused = unsafe {
        kutsvame_carry(
            buffer.as_mut_ptr(),
            room,
            size,
            key,
            BODY.as_ptr(),
            BODY.len(),
        )
    };
    usize::from(refused)
}

/// Moves the data as far as the block is long, and no more.
fn theirs(buffer: &mut [u8]) -> usize {
    buffer.copy_within(START..SIZE, START + MOVE);
    0
}

/// The buffer with the block put in, in plain Rust.
fn edited(mut buffer: Vec<u8>) -> Vec<u8> {
    theirs(&mut buffer);
    put_extents(&mut buffer, START + MOVE);
    buffer[START..START + 4].copy_from_slice(KEY);
    buffer[START + 4..START + 8].copy_from_slice(&(BODY.len() as u32).to_be_bytes());
    buffer[START + 8..START + MOVE].copy_from_slice(BODY);
    buffer
}

/// A buffer that is one byte short and a file that is one byte short are refused, and the buffer stays as it was.
fn check_refusals(before: &[u8]) {
    let mut buffer = before.to_vec();
    assert_eq!(ours(&mut buffer[..SIZE + MOVE - 1], SIZE), 32);
    assert_eq!(ours(&mut buffer, SIZE - 1), 31);
    assert!(buffer == before, "the buffer changed");
}

/// The nanoseconds that the work takes each time; before each the buffer is made anew, which does not count.
fn time(buffer: &mut [u8], before: &[u8], work: impl Fn(&mut [u8]) -> usize) -> f64 {
    let mut whole = 0.0;
    for _ in 0..REPEATS {
        buffer.copy_from_slice(before);
        whole += timing::time(1, || work(black_box(&mut *buffer)));
    }
    whole / f64::from(REPEATS)
}

fn main() {
    let before = sample();
    let mut buffers = (before.clone(), before.clone());
    assert_eq!(ours(&mut buffers.0, SIZE), 0);
    assert!(buffers.0 == edited(before.clone()), "the buffers differ");
    check_refusals(&before);
    timing::compare(
        "editing",
        || time(&mut buffers.0, &before, |buffer| ours(buffer, SIZE)),
        || time(&mut buffers.1, &before, theirs),
    );
}
