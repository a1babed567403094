//! How long reading and writing take, beside the Rust's parsing alone.

use crate::least::processor;
use crate::library;
use crate::second::{self, BYTES};
use crate::{families, parse, records};
use std::time::Duration;

/// The least times of the processor for one text, in microseconds, and what it gives.
struct Times {
    measure: f64,
    read: f64,
    normal: f64,
    rust: f64,
    records: usize,
    /// Bytes of the normal text, or the cause of a refusal.
    written: Result<u64, u64>,
}

/// The calls of a round, and how many rounds there are.
const SHORT: (u32, u32) = (20, 200);
const LONG: (u32, u32) = (1, 12);

fn times(text: &str, (calls, rounds): (u32, u32)) -> Times {
    let bytes = text.as_bytes();
    let (mut words, mut texts, mut output) = (vec![0; 28 * text.len() + 7], vec![0; 6 * text.len()], vec![0; BYTES]);
    let stored = library::measure(bytes).first as usize;
    let answer = library::normal_text(bytes, &mut words, &mut texts, &mut output);
    // By turns, so that what else the machine does meets all alike.
    let mut least_times = [Duration::MAX; 4];
    for _ in 0..rounds {
        let round = [
            processor(calls, || library::measure(bytes)),
            processor(calls, || library::read(bytes, &mut words, &mut texts)),
            processor(calls, || library::normal_text(bytes, &mut words, &mut texts, &mut output)),
            processor(calls, || parse::parse_grammar(std::str::from_utf8(bytes).expect("UTF-8"), None)),
        ];
        least_times = std::array::from_fn(|which| least_times[which].min(round[which]));
    }
    let [measure, read, normal, rust] = least_times.map(|time| time.as_secs_f64() * 1e6);
    Times {
        measure,
        read,
        normal,
        rust,
        records: stored / records::WIDTH,
        written: if answer.cause == 0 { Ok(answer.first) } else { Err(answer.cause) },
    }
}

/// A time with three digits.
fn digits(time: f64) -> String {
    let after = if time < 10.0 { 2 } else { usize::from(time < 100.0) };
    format!("{time:.after$}")
}

fn row(name: &str, bytes: usize, times: &Times, half: Option<&Times>) {
    let Times { measure, read, normal, rust, records, written } = times;
    let written = written.map_or_else(|cause| format!("refused {cause}"), |bytes| format!("{bytes} bytes"));
    let growth = half.map_or(String::new(), |half| format!(" {:.2} | {:.2} |", read / half.read, normal / half.normal));
    let (with_read, with_normal) = (read / rust, normal / rust);
    let [measure, read, normal, rust] = [measure, read, normal, rust].map(|&time| digits(time));
    println!("| {name} | {bytes} | {records} | {written} | {rust} | {measure} | {read} | {with_read:.2} | {normal} | {with_normal:.2} |{growth}");
}

const HEADS: &str = "bytes | records | normal text | Rust's parse, µs | measure, µs | read, µs | ratio | read and normal text, µs | ratio |";

/// Tables of the times: of the given files, and of the families at two sizes.
pub fn measure(examples: &[&str]) {
    println!("| example | {HEADS}\n|{}", "---|".repeat(10));
    for path in examples {
        let text = std::fs::read_to_string(path).expect("a grammar");
        let name = path.rsplit('/').next().expect("a name");
        row(name, text.len(), &times(&text, SHORT), None);
    }
    println!("\n| 64 KB of | {HEADS} 64 KB to 32 KB, read | with normal text |\n|{}", "---|".repeat(12));
    let wholes = families::texts(BYTES);
    for ((name, half), (_, whole)) in families::texts(32_767).iter().zip(&wholes) {
        let (first, second) = (times(half, LONG), times(whole, LONG));
        row(name, whole.len(), &second, Some(&first));
    }
    println!("\n| as much as has a normal text, of | {HEADS}\n|{}", "---|".repeat(10));
    for (which, (name, _)) in wholes.iter().enumerate() {
        let smaller = (1..=64).rev().map(|part| families::texts(BYTES * part / 64).swap_remove(which).1);
        let text = smaller.into_iter().find(|text| has_normal_text(text)).expect("a text that is short enough");
        row(name, text.len(), &times(&text, LONG), None);
    }
}

fn has_normal_text(text: &str) -> bool {
    second::read(text.as_bytes()).is_ok_and(|tree| second::normal_text(&tree).len() <= BYTES)
}
