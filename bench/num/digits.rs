// Reads a decimal run again and again, through crate `num` (libnum_speed.a) or by the same rules in plain Rust: digits WHICH PLACES TIMES, with WHICH
// `here` or `rust`. Writes what was said of the run the last time: its number, and whether it is a length, a size and a bound.
use std::env::args;
use std::hint::black_box;

const RUN: &[u8] = b"18446744073709551615";

extern "C" {
    fn num_speed_number(draft: *const u8, len: usize, start: usize, end: usize, said: *mut [u64; 4]);
}

fn here(draft: &[u8], end: usize, said: &mut [u64; 4]) {
    // The entry reads `draft.len()` bytes at most, whatever `end` is, and writes four words.
    unsafe { num_speed_number(draft.as_ptr(), draft.len(), 0, end, said) }
}

fn number(run: &[u8]) -> Option<u64> {
    let mut v: u64 = 0;
    for &b in run {
        if b != b'_' {
            v = v.checked_mul(10)?.checked_add(u64::from(b.saturating_sub(b'0')))?;
        }
    }
    Some(v)
}

#[inline(never)]
fn rust(draft: &[u8], end: usize, said: &mut [u64; 4]) {
    *said = match number(draft.get(..end).unwrap_or(&[])) {
        Some(v) => [v, 1, u64::from(v != 0), u64::from(v >= 2 && v.is_power_of_two())],
        None => [0; 4],
    };
}

fn main() {
    let words: Vec<String> = args().collect();
    let read = match words[1].as_str() {
        "here" => here,
        "rust" => rust,
        _ => panic!("WHICH is neither `here` nor `rust`"),
    };
    let places: usize = words[2].parse().expect("places");
    let times: usize = words[3].parse().expect("times");
    let mut said = [0; 4];
    for _ in 0..times {
        read(black_box(RUN), black_box(places), black_box(&mut said));
    }
    println!("{said:?}");
}
