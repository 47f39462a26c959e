//! Times the port by the original: the same loops over both in one process, in turns. `bench/run` builds and calls it.
//!
//!     bench RUNS BATCHES [WORD..]
//!
//! Of the rows whose name has one of the words, or of all; an answer that differs ends it with status 1.
mod calls;
mod trial;
mod values;

use std::env;
use std::process::ExitCode;
use std::time::Instant;
use trial::{ROWS, Trial};

/// How many values are in a trial at most; so many items have all of them together, unless one has more.
const VALUES: usize = 1000;

/// How long a call takes at least, in nanoseconds.
const CALL: f64 = 200_000.0;

impl Trial {
    /// Whether both sides answer the same, and leave the same.
    fn agrees(&mut self) -> bool {
        let counts = [0, 1].map(|side| self.call(side, 1).1);
        let [original, port] = &self.rooms;
        counts[0] > 0
            && counts[0] == counts[1]
            && (self.row.same)(&original[..counts[0]], &port[..counts[1]])
    }

    /// How many turns a call makes: so many that they take long enough, and twice as long as a call that makes none. They
    /// are doubled until they do, since of a few turns the time may be lost in what a call takes without any.
    fn turns(&mut self) -> usize {
        let start = (0..3).map(|_| self.call(0, 0).0).fold(f64::MAX, f64::min);
        let wanted = start + f64::max(CALL, 2.0 * start);
        let mut turns = 1;
        while self.call(0, turns).0 < wanted {
            turns *= 2;
        }
        turns
    }

    /// How long each side takes for one value, or for one item of a value: the least time of so many calls, without what
    /// a call takes that reads its values and makes no turn.
    fn times(&mut self, batches: usize) -> [f64; 2] {
        let turns = self.turns();
        let mut whole = [f64::MAX; 2];
        let mut begun = [f64::MAX; 2];
        for batch in 0..batches {
            for side in [batch % 2, (batch + 1) % 2] {
                whole[side] = whole[side].min(self.call(side, turns).0);
                begun[side] = begun[side].min(self.call(side, 0).0);
            }
        }
        [0, 1].map(|side| {
            (whole[side] - begun[side]) / turns as f64 / (self.values * self.case.items) as f64
        })
    }
}

fn median(times: &mut [f64]) -> f64 {
    times.sort_by(f64::total_cmp);
    times[times.len() / 2]
}

/// The geometric mean.
fn mean(ratios: &[f64]) -> f64 {
    (ratios.iter().map(|ratio| ratio.ln()).sum::<f64>() / ratios.len() as f64).exp()
}

/// The times of one trial in each run.
struct Timed {
    name: String,
    group: String,
    runs: Vec<[f64; 2]>,
}

impl Timed {
    fn side(&self, side: usize) -> f64 {
        median(&mut self.runs.iter().map(|run| run[side]).collect::<Vec<_>>())
    }

    /// The ratios of the port to the original, the least first.
    fn ratios(&self) -> Vec<f64> {
        let mut ratios: Vec<f64> = self.runs.iter().map(|run| run[1] / run[0]).collect();
        ratios.sort_by(f64::total_cmp);
        ratios
    }

    fn ratio(&self) -> f64 {
        median(&mut self.ratios())
    }
}

fn print_table(all: &[Timed]) {
    println!(
        "{:<32} {:>9} {:>9} {:>6}  from - to",
        "call, configuration, type, values", "original", "port", "ratio"
    );
    for timed in all {
        let ratios = timed.ratios();
        println!(
            "{:<32} {:>9.2} {:>9.2} {:>6.2}  {:.2} - {:.2}",
            timed.name,
            timed.side(0),
            timed.side(1),
            timed.ratio(),
            ratios[0],
            ratios[ratios.len() - 1]
        );
    }
}

fn print_means(all: &[Timed]) {
    let mut groups: Vec<(&str, Vec<f64>)> = vec![];
    for timed in all {
        match groups.iter_mut().find(|(group, _)| *group == timed.group) {
            Some((_, ratios)) => ratios.push(timed.ratio()),
            None => groups.push((&timed.group, vec![timed.ratio()])),
        }
    }
    println!("\ngeometric means of the ratios");
    for (group, ratios) in groups {
        println!(
            "{group:<32} {:>3} rows {:>6.2}",
            ratios.len(),
            mean(&ratios)
        );
    }
}

fn main() -> ExitCode {
    let mut arguments = env::args().skip(1);
    let mut number = || {
        arguments
            .next()
            .and_then(|word| word.parse::<usize>().ok())
            .expect("a number")
    };
    let (runs, batches) = (number(), number());
    let words: Vec<String> = arguments.collect();
    let is_asked = |trial: &Trial| {
        words.is_empty()
            || words
                .iter()
                .any(|word| trial.name().contains(word.as_str()))
    };

    let trials = ROWS.iter().flat_map(|row| {
        let values = |items: usize| (VALUES / items).max(1);
        row.cases
            .iter()
            .map(move |case| Trial::new(row, case, values(case.items)))
    });
    let mut trials: Vec<Trial> = trials.filter(is_asked).collect();
    let mut agree = true;
    for trial in &mut trials {
        if !trial.agrees() {
            println!("DIFFERENT: {}", trial.name());
            agree = false;
        }
    }
    if !agree {
        return ExitCode::FAILURE;
    }
    let mut all: Vec<Timed> = vec![];
    for run in 0..runs {
        let start = Instant::now();
        for (place, trial) in trials.iter_mut().enumerate() {
            if run == 0 {
                let group = format!("{} {}", trial.row.way, trial.row.configuration);
                all.push(Timed {
                    name: trial.name(),
                    group,
                    runs: vec![],
                });
            }
            all[place].runs.push(trial.times(batches));
        }
        eprintln!(
            "run {} of {runs}: {:.0} s",
            run + 1,
            start.elapsed().as_secs_f64()
        );
    }
    print_table(&all);
    print_means(&all);
    ExitCode::SUCCESS
}
