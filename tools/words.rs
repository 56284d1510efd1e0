//! Counts the words of standard input in several threads. tools/compare_real.py compiles it for an
//! object with the debug information of Rust and of its standard library.
use std::collections::{BTreeMap, HashMap};
use std::fmt;
use std::io::{self, BufRead, Write};
use std::sync::mpsc;
use std::thread;

/// A way to weigh words.
trait Weight {
    fn of(&self, word: &str) -> f64;
}

/// The number of letters.
struct Letters;

/// The number of letters that are vowels.
struct Vowels;

impl Weight for Letters {
    fn of(&self, word: &str) -> f64 {
        word.chars().filter(|letter| letter.is_alphabetic()).count() as f64
    }
}

impl Weight for Vowels {
    fn of(&self, word: &str) -> f64 {
        word.to_lowercase().matches(|letter| "aeiou".contains(letter)).count() as f64
    }
}

/// A word, how often it occurs, and its weight.
#[derive(Clone, Debug, PartialEq, PartialOrd)]
struct Counted {
    count: usize,
    weight: f64,
    word: String,
}

impl fmt::Display for Counted {
    fn fmt(&self, out: &mut fmt::Formatter<'_>) -> fmt::Result {
        write!(out, "{:>6} {:8.2} {}", self.count, self.weight, self.word)
    }
}

/// Counts the words of some lines.
fn counts(lines: &[String]) -> HashMap<String, usize> {
    let mut found = HashMap::new();
    for word in lines.iter().flat_map(|line| line.split_whitespace()) {
        *found.entry(word.to_owned()).or_insert(0) += 1;
    }
    found
}

/// Counts the words of all lines, with a thread for each part.
fn count_in_parts(lines: Vec<String>, parts: usize) -> BTreeMap<String, usize> {
    let (sender, receiver) = mpsc::channel();
    let size = lines.len() / parts + 1;
    for part in lines.chunks(size) {
        let (sender, part) = (sender.clone(), part.to_vec());
        thread::spawn(move || sender.send(counts(&part)));
    }
    drop(sender);
    let mut all = BTreeMap::new();
    for (word, count) in receiver.into_iter().flatten() {
        *all.entry(word).or_insert(0) += count;
    }
    all
}

/// Returns the counted words, those that occur most first.
fn ranked(all: BTreeMap<String, usize>, weight: &dyn Weight) -> Vec<Counted> {
    let mut ranked: Vec<_> = all
        .into_iter()
        .map(|(word, count)| Counted { count, weight: weight.of(&word), word })
        .collect();
    ranked.sort_by(|left, right| right.partial_cmp(left).expect("weights are numbers"));
    ranked
}

fn main() -> Result<(), Box<dyn std::error::Error>> {
    let parts = std::env::args().nth(1).map_or(Ok(4), |text| text.parse::<usize>())?;
    let lines = io::stdin().lock().lines().collect::<Result<Vec<_>, _>>()?;
    let weights: [Box<dyn Weight>; 2] = [Box::new(Letters), Box::new(Vowels)];
    let all = count_in_parts(lines, parts.max(1));
    let mut out = io::stdout().lock();
    for weight in &weights {
        for counted in ranked(all.clone(), weight.as_ref()) {
            writeln!(out, "{counted}")?;
        }
    }
    Ok(())
}
