//! `compare whole`: whole checks, the original and this product in turns on the same texts, clearing of the tables included.
use crate::expected::{bytes, expected};
use crate::schematic::check;
use crate::whole_texts::{Row, rows};
use crate::{seam, speed};
use std::hint::black_box;
use std::time::Instant;

const ROUNDS: usize = 301;

/// The times of one side, in microseconds a call. A round is short, so that few are interrupted on a machine with other work.
struct Times(Vec<f64>);

impl Times {
    fn add(&mut self, f: &mut dyn FnMut(), calls: u32) {
        let start = Instant::now();
        for _ in 0..calls {
            f();
        }
        self.0.push(start.elapsed().as_secs_f64() * 1e6 / f64::from(calls));
    }

    /// The median and the best.
    fn summary(&mut self) -> (f64, f64) {
        self.0.sort_by(f64::total_cmp);
        (self.0[self.0.len() / 2], self.0[0])
    }
}

/// How many calls make a round of at least half a millisecond.
fn calls(f: &mut dyn FnMut()) -> u32 {
    (500.0 / (speed::once(f).as_secs_f64() * 1e6)).ceil().max(1.0) as u32
}

/// Both answers are the row's, and it is inside the limits, which the original does not have.
fn hold(row: &Row) {
    let it = expected(&bytes(&row.texts)).unwrap_or_else(|why| panic!("{}: {why}", row.name));
    assert_eq!(it.line, row.line, "the original on {}", row.name);
    if seam::LINKED {
        let mut tables = seam::Tables::new();
        let ours = seam::check(&bytes(&row.texts), &mut tables);
        assert_eq!(seam::line(ours), row.line, "ours on {}", row.name);
    }
}

fn print(row: &Row) {
    hold(row);
    let t = &row.texts;
    let (texts, mut tables) = (bytes(t), seam::Tables::new());
    let mut original = || drop(black_box(check(&t.theory, &t.goals, t.proof.as_bytes())));
    let mut ours = || {
        black_box(seam::check(&texts, &mut tables));
    };
    let counts = [calls(&mut original), if seam::LINKED { calls(&mut ours) } else { 0 }];
    let [mut theirs, mut own] = [Times(Vec::new()), Times(Vec::new())];
    for _ in 0..ROUNDS {
        theirs.add(&mut original, counts[0]);
        if seam::LINKED {
            own.add(&mut ours, counts[1]);
        }
    }
    let size = t.theory.len() + t.goals.len() + t.proof.len();
    let (median, best) = theirs.summary();
    print!("{:10} {size:8} {median:12.1} {best:12.1}", row.name);
    if seam::LINKED {
        let (own_median, own_best) = own.summary();
        print!(" {own_median:12.1} {own_best:12.1} {:8.3}", own_median / median);
    }
    println!();
}

pub fn run() -> Result<(), String> {
    println!("{:10} {:>8} {:>12} {:>12} {:>12} {:>12} {:>8}", "", "bytes", "original, us", "best", "ours, us", "best", "ratio");
    rows().iter().for_each(print);
    Ok(())
}

#[cfg(test)]
mod tests {
    use super::*;

    #[test]
    fn every_row_is_what_it_says() {
        for row in rows() {
            crate::with_room(|| hold(&row));
            let t = &row.texts;
            println!("{} {} + {} + {} bytes: {}", row.name, t.theory.len(), t.goals.len(), t.proof.len(), row.line);
        }
    }
}
