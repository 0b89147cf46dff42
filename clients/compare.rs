//! Holds the library to the reference: `compare [COUNT [SEED]]` makes so many random texts, gives
//! each to both and compares what they print, byte for byte.

mod reference;
mod texts;
mod tuharimo;

use std::env;
use std::process::ExitCode;
use std::time::{Duration, Instant};

use texts::Random;

const DEFAULT_COUNT: usize = 200_000;
const DEFAULT_SEED: u64 = 1;

/// So many texts that differ are shown.
const SHOWN: usize = 3;

fn main() -> ExitCode {
    let count = argument(1).unwrap_or(DEFAULT_COUNT as u64) as usize;
    let seed = argument(2).unwrap_or(DEFAULT_SEED);
    let mut random = Random::new(seed);
    let mut tally = Tally::default();
    for number in 1..=count {
        let text = texts::random_text(&mut random);
        let library_first = number % 2 == 0; // who comes first finds cold caches: they take turns
        let early = library_first.then(|| ask_library(&text));
        let (expected, reference_time) = ask_reference(&text);
        let (answered, library_time) = early.unwrap_or_else(|| ask_library(&text));
        tally.reference_time += reference_time;
        tally.library_time += library_time;
        tally.note(&expected);
        if answered != expected || !keeps_its_word(&text, &expected) {
            tally.differ += 1;
            if tally.differ <= SHOWN {
                show(number, seed, &text, &answered, &expected);
            }
        }
    }
    tally.print();
    if tally.differ == 0 && tally.is_complete() { ExitCode::SUCCESS } else { ExitCode::FAILURE }
}

fn argument(place: usize) -> Option<u64> {
    let word = env::args().nth(place)?;
    Some(word.parse().expect("usage: compare [COUNT [SEED]], both numbers"))
}

fn timed<T>(work: impl FnOnce() -> T) -> (T, Duration) {
    let start = Instant::now();
    let done = work();
    (done, start.elapsed())
}

fn ask_reference(text: &[u8]) -> (Vec<u8>, Duration) {
    timed(|| reference::answer(text))
}

/// What the library answers, as a list of its own since the reference makes one too.
fn ask_library(text: &[u8]) -> (Vec<u8>, Duration) {
    let mut output = [0; tuharimo::OUTPUT_ENOUGH];
    timed(|| tuharimo::answer(text, &mut output).unwrap_or_default().to_vec())
}

/// Does the library use just as much of an output as it says? One byte too short, it is left
/// untouched, and so are the bytes behind an answer.
fn keeps_its_word(text: &[u8], answer: &[u8]) -> bool {
    const UNTOUCHED: u8 = 0xa5;
    let mut output = vec![UNTOUCHED; answer.len() + 8];
    let refused = tuharimo::answer(text, &mut output[..answer.len() - 1]).is_none();
    let kept = output.iter().all(|&byte| byte == UNTOUCHED);
    let fits = tuharimo::answer(text, &mut output[..answer.len()]) == Some(answer);
    let longer = tuharimo::answer(text, &mut output) == Some(answer);
    let kept_behind = output[answer.len()..].iter().all(|&byte| byte == UNTOUCHED);
    refused && kept && fits && longer && kept_behind
}

fn show(number: usize, seed: u64, text: &[u8], answered: &[u8], expected: &[u8]) {
    println!("---- text {number} of seed {seed}, {} bytes", text.len());
    println!("{}", String::from_utf8_lossy(text));
    if answered == expected {
        println!("---- the answers agree, but an output was not used or kept as promised");
    }
    println!("---- the library answers");
    println!("{}", String::from_utf8_lossy(answered));
    println!("---- the reference answers");
    println!("{}", String::from_utf8_lossy(expected));
}

/// What came of the texts, as the reference has it.
#[derive(Default)]
struct Tally {
    differ: usize,
    refused: usize,
    accepted: usize,
    reported: usize,
    refusals: [usize; 11],
    causes: [usize; 5],
    library_time: Duration,
    reference_time: Duration,
}

impl Tally {
    fn note(&mut self, answer: &[u8]) {
        let answer = str::from_utf8(answer).expect("the reference prints ASCII");
        let mut lines = answer.lines();
        let is_fault = lines.next() == Some("number line place layer");
        let rows: Vec<Vec<&str>> = lines.map(|line| line.split(' ').collect()).collect();
        if is_fault {
            self.refused += 1;
            self.refusals[index_of(rows[0][0])] += 1;
        } else if rows.is_empty() {
            self.accepted += 1;
        } else {
            self.reported += 1;
            for row in rows {
                self.causes[index_of(row[1])] += 1;
            }
        }
    }

    /// Did each refusal and each cause occur?
    fn is_complete(&self) -> bool {
        self.refusals.iter().chain(&self.causes).all(|&count| count > 0)
    }

    fn print(&self) {
        let Tally { differ, refused, accepted, reported, .. } = self;
        let count = refused + accepted + reported;
        let nanoseconds = |time: Duration| time.as_nanos() / count.max(1) as u128;
        println!(
            "{count} texts, {differ} differ; of them {refused} refused, {accepted} accepted, \
             {reported} reported; library {} ns a text, reference {} ns a text",
            nanoseconds(self.library_time),
            nanoseconds(self.reference_time),
        );
        println!("texts by refusal: {}", numbered(&self.refusals));
        println!("reports by cause: {}", numbered(&self.causes));
        if !self.is_complete() {
            println!("a refusal or a cause never occurred: take more texts");
        }
    }
}

/// The place of a number's count in a list: numbers count from 1.
fn index_of(number: &str) -> usize {
    number.parse::<usize>().expect("a number") - 1
}

fn numbered(counts: &[usize]) -> String {
    let pairs = counts.iter().zip(1..).map(|(count, number)| format!("{number}: {count}"));
    pairs.collect::<Vec<_>>().join(", ")
}
