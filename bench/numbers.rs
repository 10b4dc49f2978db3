//! Reading numbers: all rows of a file copied through the library, against plain Rust over the same bytes.
mod timing;

use std::hint::black_box;

unsafe extern "C" {
    fn kutsvame_copy_rows(file: *const u8, size: usize, list: *mut u32, room: usize) -> usize;
}

const START: usize = 72;
const CELLS: usize = 32;
const BINS: usize = 512;
/// The bytes that a bin has in each row of a cell with quality.
const ROWS: [usize; 7] = [4, 4, 4, 8, 8, 8, 4];
const COUNT: usize = CELLS * BINS * 10;
const REPEATS: u32 = 50;

/// A file of version 4 with quality, whose data follow the header and are pseudo-random.
fn sample() -> Vec<u8> {
    let mut file = vec![0; START];
    file[0..2].copy_from_slice(&4u16.to_be_bytes());
    for end in [10, 16, 24, 72] {
        file[end - 4..end].copy_from_slice(&((START - end) as u32).to_be_bytes());
    }
    file[10..12].copy_from_slice(&2u16.to_be_bytes());
    file[52..56].copy_from_slice(&(BINS as u32).to_be_bytes());
    file[56..60].copy_from_slice(&(CELLS as u32).to_be_bytes());
    let mut state = 1u32;
    for _ in 0..4 * COUNT {
        state = state.wrapping_mul(1_664_525).wrapping_add(1_013_904_223);
        file.push((state >> 24) as u8);
    }
    file
}

/// The numbers of all rows through the library, which judges the file once; answers how many, or 0.
fn ours(file: &[u8], list: &mut [u32]) -> usize {
    unsafe { kutsvame_copy_rows(file.as_ptr(), file.len(), list.as_mut_ptr(), list.len()) }
}

/// Copies the numbers of a row to the start of the list.
fn copy_row(row: &[u8], list: &mut [u32]) {
    for (number, bytes) in list.iter_mut().zip(row.chunks_exact(4)) {
        *number = u32::from_be_bytes([bytes[0], bytes[1], bytes[2], bytes[3]]);
    }
}

fn theirs(file: &[u8], list: &mut [u32]) -> usize {
    let (mut place, mut at) = (START, 0);
    for _ in 0..CELLS {
        for width in ROWS {
            let size = BINS * width;
            copy_row(&file[place..place + size], &mut list[at..]);
            place += size;
            at += size / 4;
        }
    }
    at
}

/// A file that is one byte short and a list that is one number short are refused, and the list stays as it was.
fn check_refusals(file: &[u8]) {
    let mut list = vec![7; COUNT];
    assert_eq!(ours(&file[..file.len() - 1], &mut list), 0);
    assert_eq!(ours(file, &mut list[1..]), 0);
    assert!(list.iter().all(|&number| number == 7), "the list changed");
}

fn main() {
    let file = sample();
    let mut lists = (vec![0; COUNT], vec![0; COUNT]);
    assert_eq!(ours(&file, &mut lists.0), COUNT);
    assert_eq!(theirs(&file, &mut lists.1), COUNT);
    assert!(lists.0 == lists.1, "the numbers differ");
    check_refusals(&file);
    timing::compare(
        "numbers",
        || timing::time(REPEATS, || ours(black_box(&file), black_box(&mut lists.0))),
        || {
            timing::time(REPEATS, || {
                theirs(black_box(&file), black_box(&mut lists.1))
            })
        },
    );
}
