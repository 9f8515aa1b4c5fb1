//! Times the proved memory beside other objects, and writes Markdown tables. Each cell is of the repetitions of one run, in
//! which the objects take turns: the least where one thread is at work, and otherwise the median.

mod answers;
mod benches;
mod called;
mod objects;
mod parts;
mod processors;
mod raw;
mod scans;
mod sizes;
mod tables;
mod versions;

use benches::BENCHES;
use objects::NAMES;
use scans::Scans;
use sizes::Sizes;
use tables::Results;

const REPETITIONS: usize = 7;

fn main() {
    let (mut results, mut sizes, mut scans) = (Results::new(), Sizes::new(), Scans::new());
    for repetition in 0..REPETITIONS {
        for (row, bench) in BENCHES.iter().enumerate() {
            for turn in 0..bench.rounds * NAMES.len() {
                let object = (turn + repetition) % NAMES.len();
                results.add(row, object, (bench.run)(NAMES[object]));
            }
        }
        sizes.add();
        scans.add();
    }
    results.print();
    println!();
    sizes.print();
    println!();
    scans.print();
}
