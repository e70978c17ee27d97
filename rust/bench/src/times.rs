//! Times of calls that are measured against each other, in one process.

use std::hint::black_box;
use std::time::{Duration, Instant};

/// Reads bytes and writes all of what is lent, a buffer or several: how much is used.
pub type Call<Out> = fn(&[u8], &mut Out) -> usize;
/// A call and what it reads.
pub type Run<'a, Out> = (Call<Out>, &'a [u8]);
/// The name of a row, and what is read for it.
pub type Row = (String, Vec<Vec<u8>>);

/// Batches of each run: so many that some are not disturbed by what else the machine does.
const BATCHES: usize = 100;
/// A batch takes this long at least, and less than about twice as long.
const BATCH: Duration = Duration::from_millis(2);

/// Calls again and again with the same buffer: what the last call used of it.
pub fn repeat<Out: ?Sized>((call, input): Run<Out>, out: &mut Out, repeats: u32) -> usize {
    let mut used = 0;
    for _ in 0..repeats {
        used = black_box(call)(black_box(input), black_box(&mut *out));
    }
    used
}

/// A line for each row: its name, and for each of its inputs the time of each call, in microseconds. Batches of all runs
/// of the table take turns, so that what disturbs the machine for a while disturbs all.
pub fn table<Out: ?Sized>(rows: &[Row], calls: [Call<Out>; 2], out: &mut Out) -> String {
    let inputs = rows.iter().flat_map(|(_, inputs)| inputs);
    let runs: Vec<Run<Out>> = inputs
        .flat_map(|input| calls.map(|call| (call, input.as_slice())))
        .collect();
    let mut times = least(&runs, out).into_iter();
    let mut line = |(name, inputs): &Row| {
        let times = times.by_ref().take(calls.len() * inputs.len());
        times.fold(name.clone(), |line, time| format!("{line} {time:.2}"))
    };
    rows.iter().map(&mut line).collect::<Vec<_>>().join("\n")
}

/// The time of one call of each run: the least of its batches. Those of all runs take turns, with the same buffer.
fn least<Out: ?Sized>(runs: &[Run<Out>], out: &mut Out) -> Vec<f64> {
    let sizes: Vec<u32> = runs.iter().map(|run| batch_size(*run, out)).collect();
    let mut least = vec![f64::INFINITY; runs.len()];
    for _ in 0..BATCHES {
        for ((run, size), least) in runs.iter().zip(&sizes).zip(&mut least) {
            let microseconds = time(*run, out, *size).as_secs_f64() * 1e6;
            *least = least.min(microseconds / f64::from(*size));
        }
    }
    least
}

/// How many calls a batch has.
fn batch_size<Out: ?Sized>(run: Run<Out>, out: &mut Out) -> u32 {
    let mut size = 1;
    while time(run, out, size) < BATCH {
        size *= 2;
    }
    size
}

fn time<Out: ?Sized>(run: Run<Out>, out: &mut Out, repeats: u32) -> Duration {
    let start = Instant::now();
    repeat(run, out, repeats);
    start.elapsed()
}

/// The FNV-1a checksum of 64 bits, over bytes or words.
pub fn checksum<Word: Copy + Into<u64>>(words: &[Word]) -> u64 {
    words.iter().fold(0xcbf2_9ce4_8422_2325, |sum, word| {
        (sum ^ (*word).into()).wrapping_mul(0x100_0000_01b3)
    })
}
