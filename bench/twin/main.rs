//! The unverified twin of the program `rota`: the same file format, search, filtering and thresholds in plain safe Rust,
//! and the same output byte for byte. `bench/run.py` builds it and times the two side by side.

mod linear;
mod lists;
mod network;
mod search;
mod tables;
mod text;
mod wcsp;

use network::OBJECTIVES;
use std::io::{Read, Write};

/// The most bytes that the program reads.
const TEXT: u64 = 32_768;

fn main() -> std::io::Result<()> {
    let mut text = Vec::with_capacity(TEXT as usize + 1);
    std::io::stdin()
        .lock()
        .take(TEXT + 1)
        .read_to_end(&mut text)?;
    let answer = if text.len() as u64 > TEXT {
        "too long\n".to_string()
    } else {
        answer(&text)
    };
    std::io::stdout().lock().write_all(answer.as_bytes())
}

/// What the program answers to a file that isn't too long.
fn answer(text: &[u8]) -> String {
    let network = match wcsp::read(text) {
        Ok(network) => network,
        Err(fault) => return format!("refused {} at {}\n", fault.number, fault.at),
    };
    let objectives: Vec<u8> = (0..network.variables().min(OBJECTIVES) as u8).collect();
    match search::best(&network, &objectives) {
        None => "inconsistent\n".to_string(),
        Some(rota) => {
            let values = &rota[..network.variables()];
            let mut sorted = values[..objectives.len()].to_vec();
            sorted.sort_unstable();
            format!(
                "found\nvalues{}\nsorted{}\n",
                fields(values),
                fields(&sorted)
            )
        }
    }
}

/// Each number after one space.
fn fields(numbers: &[u8]) -> String {
    numbers.iter().map(|n| format!(" {n}")).collect()
}
