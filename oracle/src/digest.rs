//! `oracle md5` and `oracle md5-speed`: the source's `md5::digest`.

use std::fs;
use std::hint::black_box;
use std::io::{self, Write};

use crate::{hex, md5};

/// The lengths that `md5-speed` measures: a whole packet, a photograph's record, and
/// the nonce, colon and password of a digest.
const LENGTHS: [usize; 3] = [65536, 49152, 24];

/// How often each length is measured; the best counts.
const ROUNDS: usize = 7;

pub fn answer(line: &str, out: &mut Vec<u8>) -> Option<()> {
    let message = hex::parse(line)?;
    hex::push(out, &md5::digest(&[&message]));
    Some(())
}

/// The processor time of this thread so far, which other work on the machine does not
/// change: the first number of Linux's schedstat, in nanoseconds.
fn processor_seconds() -> io::Result<f64> {
    let stat = fs::read_to_string("/proc/thread-self/schedstat")?;
    let nanoseconds = stat.split_whitespace().next().and_then(|n| n.parse::<f64>().ok());
    nanoseconds.map(|n| n / 1e9).ok_or_else(|| io::ErrorKind::InvalidData.into())
}

/// Prints the throughput over about `megabytes` a round.
pub fn speed(megabytes: usize, output: &mut impl Write) -> io::Result<()> {
    for length in LENGTHS {
        let message: Vec<u8> = (0..length).map(|i| (i * 7 + 3) as u8).collect();
        let count = (megabytes * 1_000_000 / length).max(1);

        let mut best = f64::INFINITY;
        for _ in 0..ROUNDS {
            let start = processor_seconds()?;
            for _ in 0..count {
                black_box(md5::digest(&[black_box(&message)]));
            }
            best = best.min(processor_seconds()? - start);
        }

        let rate = (count * length) as f64 / best / 1e6;
        writeln!(output, "rust md5 {length} {rate:.0} MB/s")?;
    }

    Ok(())
}
