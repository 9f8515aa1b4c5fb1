//! The tables that are written of what was measured.

use crate::benches::{median, Bench, BENCHES};
use crate::objects::NAMES;
use crate::parts::Sample;

const OPENING: usize = 1;
const RAW: usize = 2;
const CALLED: usize = 3;

/// The samples of each bench and object, one for each repetition.
pub struct Results(Vec<Vec<Vec<Sample>>>);

impl Results {
    pub fn new() -> Results {
        let row = || NAMES.iter().map(|_| Vec::new()).collect();
        Results(BENCHES.iter().map(|_| row()).collect())
    }

    pub fn add(&mut self, row: usize, object: usize, sample: Sample) {
        self.0[row][object].push(sample);
    }

    /// Prints all of it in Markdown.
    pub fn print(&self) {
        self.print_times();
        println!();
        self.print_ratios();
        println!();
        self.print_left_out();
    }

    fn print_times(&self) {
        println!("| ns a call | {} |", NAMES.join(" | "));
        println!("|---|{}", "---|".repeat(NAMES.len()));
        for (bench, samples) in BENCHES.iter().zip(&self.0) {
            for (at, title) in titles(bench) {
                let cells: Vec<String> = samples.iter().map(|samples| cell(bench, samples, at)).collect();
                println!("| {title} | {} |", cells.join(" | "));
            }
        }
    }

    fn print_ratios(&self) {
        println!("| opening | speed, of raw | of called | time, of raw | of called |");
        println!("|---|---|---|---|---|");
        for (bench, samples) in BENCHES.iter().zip(&self.0) {
            let (opening, raw, called) = (&samples[OPENING], &samples[RAW], &samples[CALLED]);
            for (at, title) in titles(bench) {
                match bench.is_time {
                    true => println!("| {title} | - | - | {} | {} |", ratio(opening, raw, at), ratio(opening, called, at)),
                    false => println!("| {title} | {} | {} | - | - |", ratio(raw, opening, at), ratio(called, opening, at)),
                }
            }
        }
    }

    // How many parts were left out, and of which cells over half.
    fn print_left_out(&self) {
        let (kept, left_out) = count(self.0.iter().flatten().flatten());
        let part = 100.0 * left_out as f64 / (kept + left_out) as f64;
        println!("Left out were {left_out} of {} parts, {part:.1} %.", kept + left_out);
        let mut over_half = Vec::new();
        for (bench, samples) in BENCHES.iter().zip(&self.0) {
            for (name, samples) in NAMES.iter().zip(samples) {
                let (kept, left_out) = count(samples);
                if left_out > kept {
                    over_half.push(format!("{left_out} of {} of `{name}` at {}", kept + left_out, bench.name));
                }
            }
        }
        if !over_half.is_empty() {
            println!("\nOver half were left out here, so these cells say little: {}.", over_half.join("; "));
        }
    }
}

// How many parts of these samples were kept, and how many left out.
fn count<'a>(samples: impl IntoIterator<Item = &'a Sample>) -> (usize, usize) {
    let add = |(kept, left_out), sample: &Sample| (kept + sample.kept, left_out + sample.left_out);
    samples.into_iter().fold((0, 0), add)
}

fn titles(bench: &Bench) -> impl Iterator<Item = (usize, String)> + '_ {
    bench.endings.iter().enumerate().map(|(at, ending)| (at, format!("{}{ending}", bench.name)))
}

// The value of a sample, or None where all its parts were left out.
fn value(sample: &Sample, at: usize) -> Option<f64> {
    sample.values.get(at).copied()
}

fn cell(bench: &Bench, samples: &[Sample], at: usize) -> String {
    let values: Vec<f64> = samples.iter().filter_map(|sample| value(sample, at)).collect();
    if values.is_empty() {
        return "-".to_string();
    }
    match (bench.cell)(values) {
        small if small < 100.0 => format!("{small:.1}"),
        large => format!("{large:.0}"),
    }
}

// The median of the repetitions' ratios.
fn ratio(above: &[Sample], below: &[Sample], at: usize) -> String {
    let pairs = above.iter().zip(below);
    let ratios: Vec<f64> = pairs
        .filter_map(|(above, below)| Some(value(above, at)? / value(below, at)?))
        .collect();
    match ratios.is_empty() {
        true => "-".to_string(),
        false => format!("{:.2}", median(ratios)),
    }
}

#[cfg(test)]
mod tests {
    use super::*;

    fn bench(name: &str) -> &'static Bench {
        BENCHES.iter().find(|bench| bench.name == name).expect("it is a row")
    }

    fn samples(values: &[&[f64]]) -> Vec<Sample> {
        let sample = |values: &&[f64]| Sample { values: values.to_vec(), kept: values.len(), left_out: 1 };
        values.iter().map(sample).collect()
    }

    #[test]
    fn cells_are_of_what_is_there() {
        let (of_threads, of_one) = (bench("read, 4 threads"), bench("read, 1 thread"));
        let all = samples(&[&[4.0], &[], &[1.5], &[3.0]]);
        assert_eq!((cell(of_threads, &all, 0), cell(of_one, &all, 0)), ("3.0".to_string(), "1.5".to_string()));
        assert_eq!(cell(of_threads, &samples(&[&[1.0, 123.6]]), 1), "124");
        assert_eq!(cell(of_one, &samples(&[&[], &[]]), 0), "-");
    }

    #[test]
    fn ratios_are_those_of_one_repetition() {
        let (above, below) = (samples(&[&[2.0], &[9.0], &[6.0], &[]]), samples(&[&[1.0], &[3.0], &[1.0], &[1.0]]));
        assert_eq!(ratio(&above, &below, 0), "3.00");
        assert_eq!(ratio(&above, &samples(&[&[]]), 0), "-");
        assert_eq!(count(&above), (3, 4));
    }
}
