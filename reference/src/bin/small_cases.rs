//! Writes small cases with their answers: arguments are a seed and a count.

use std::io::{self, Write};
use std::process::ExitCode;

use reference::small;

fn main() -> ExitCode {
    let numbers: Vec<u64> = std::env::args()
        .skip(1)
        .filter_map(|argument| argument.parse().ok())
        .collect();
    let [seed, count] = numbers[..] else {
        eprintln!("usage: small_cases SEED COUNT");
        return ExitCode::FAILURE;
    };
    let mut out = io::BufWriter::new(io::stdout().lock());
    for number in 0..count {
        // Seeds far apart, so that runs with neighbouring seeds share no case.
        let case = small::case(seed.wrapping_mul(1_000_003).wrapping_add(number));
        if out
            .write_all(small::lines(number, &case).as_bytes())
            .is_err()
        {
            return ExitCode::FAILURE;
        }
    }
    ExitCode::SUCCESS
}
