//! Asks the original and the port the same, and tells where they differ. `compare/run` builds and calls it.
//!
//!     compare CALLS SEED JOBS              asks both sides
//!     compare write CALLS SEED FOLDER PART PARTS      writes calls of a part of the types with the original's answers into files
//!     compare judge FOLDER PARTS           tells where the answers of other programs to them differ
mod answer;
mod children;
mod draw;
mod elsewhere;
mod reasons;
mod shape;
mod sides;
mod smallest;
mod walk;

use crate::answer::{Answer, hex};
use crate::children::{ask_apart, is_memory};
use crate::draw::{Random, SORTS};
use crate::elsewhere::{Files, asked_at, count_calls, told};
use crate::reasons::{Reason, Rooms, explain, explain_answers};
use crate::shape::Shape;
use crate::sides::*;
use crate::smallest::smallest;
use crate::walk::{PORT, Walk};
use original::calls::HEAD;
use std::collections::BTreeMap;
use std::env;
use std::fs;
use std::panic;
use std::process::ExitCode;
use std::sync::Mutex;
use std::sync::atomic::{AtomicU64, Ordering};
use std::thread;
use std::time::Instant;

/// How many bytes a container may reserve, and items without bytes it may have, where there is no limit.
const WIDEST: u128 = 1 << 16;

/// How many inputs a job takes at once.
const BLOCK: u64 = 64;

/// How many differences are told.
const TOLD: usize = 40;

/// How many inputs with a large container are read without a limit, each in a process of its own.
const APART: usize = 400;

/// A difference that nothing explains.
struct Found {
    number: u64,
    text: String,
}

#[derive(Default)]
struct Counts {
    calls: u64,
    inputs: [u64; SORTS.len()],
    /// NaNs that are read one after the other.
    nans: u64,
    /// Inputs that are not read without a limit, since one of their containers is too large.
    large: u64,
    /// Inputs that are not read at all: they have too many items without bytes.
    endless: u64,
    by_call: [u64; CALLS.len()],
    fine: u64,
    reasons: BTreeMap<Reason, u64>,
    unexplained: u64,
    apart_calls: u64,
    /// Inputs that are read in a process of their own, by the place of their type, the configuration and the bytes.
    apart: Vec<(u64, usize, usize, Vec<u8>)>,
}

impl Counts {
    fn add(&mut self, other: &Counts) {
        self.calls += other.calls;
        self.nans += other.nans;
        self.large += other.large;
        self.endless += other.endless;
        self.fine += other.fine;
        self.unexplained += other.unexplained;
        for (sum, count) in self.inputs.iter_mut().zip(other.inputs) {
            *sum += count;
        }
        for (sum, count) in self.by_call.iter_mut().zip(other.by_call) {
            *sum += count;
        }
        self.apart.extend(other.apart.iter().cloned());
        for (reason, count) in &other.reasons {
            *self.reasons.entry(*reason).or_default() += count;
        }
    }
}

/// What can be asked of an input without more memory or time than there is.
struct Size {
    is_large: bool,
    is_endless: bool,
}

fn size_of_input(call: &Call<'_>, input: &[u8]) -> Size {
    let mut walk = Walk::new(input, call.setting(), PORT, None);
    let _ = walk.walk(&call.kind.shape);
    Size {
        is_large: walk.widest > WIDEST,
        is_endless: walk.most_empty > WIDEST,
    }
}

struct Job<'j> {
    kinds: &'j [Kind],
    seed: u64,
    rooms: [Vec<u8>; 2],
    counts: Counts,
    found: Vec<Found>,
    /// Where calls are written, which are not asked here.
    files: Option<Files>,
}

impl Job<'_> {
    /// Makes a call of both sides, and tells whether they differ without a reason.
    fn differ(&mut self, call: &Call<'_>, input: &[u8]) -> (bool, Option<Vec<Reason>>) {
        let [original, port] = &mut self.rooms;
        let counts = (
            call.make(Side::Original, input, original),
            call.make(Side::Port, input, port),
        );
        let rooms = Rooms {
            original,
            port,
            counts,
        };
        if rooms.agree() {
            return (false, None);
        }
        match explain(call, input, &rooms) {
            Some(reasons) => (false, Some(reasons)),
            None => (true, None),
        }
    }

    fn tell(&mut self, number: u64, call: &Call<'_>, input: &[u8]) {
        self.counts.unexplained += 1;
        if self.found.len() >= TOLD {
            return;
        }
        let least = smallest(input, |input| {
            let size = size_of_input(call, input);
            !size.is_endless
                && (!size.is_large || call.limit().is_some())
                && self.differ(call, input).0
        });
        let [original, port] = [Side::Original, Side::Port].map(|side| call.ask(side, &least));
        self.differ(call, &least);
        let mut text = format!(
            "type {} ({}), {}, {}, numbers {:?}, input {} (of input {number}: {})\n    original: {original}\n    port:     {port}",
            call.kind.row.name,
            call.kind.row.text,
            CALLS[call.call],
            CONFIGURATIONS[call.configuration].name,
            call.numbers,
            hex(&least),
            hex(input),
        );
        if call.writes() {
            for (side, room) in ["original", "port"].iter().zip(&self.rooms) {
                text += &format!(
                    "\n    {side} wrote {}",
                    hex(&room[HEAD..HEAD + call.span(&least)])
                );
            }
        }
        self.found.push(Found { number, text });
    }

    /// Makes a call of both sides, and counts it.
    fn ask(&mut self, number: u64, call: Call<'_>, input: &[u8]) {
        self.counts.calls += 1;
        self.counts.by_call[call.call] += 1;
        if let Some(files) = &mut self.files {
            let room = &mut self.rooms[0];
            let count = call.make(Side::Original, input, room);
            files.add(&call, input, &room[..count]);
            return;
        }
        let (is_unexplained, reasons) = self.differ(&call, input);
        for reason in reasons.unwrap_or_default() {
            *self.counts.reasons.entry(reason).or_default() += 1;
        }
        if is_unexplained {
            self.tell(number, &call, input);
        }
    }

    /// Reads a value of the input in each way.
    fn ask_reading(
        &mut self,
        number: u64,
        kind: &Kind,
        configuration: usize,
        random: &mut Random,
        input: &[u8],
    ) {
        for call in BY_SLICE..=BY_WINDOW {
            if !kind.has(call, configuration) {
                continue;
            }
            let pieces = 1 + random.below(9);
            let second = match call {
                BY_BUFFER => random.below(24),
                BY_WINDOW if random.once_in(2) => random.below(24),
                BY_WINDOW => random.below(1200),
                _ if random.once_in(3) => random.below(input.len() + 1),
                _ => usize::MAX,
            };
            let numbers = (pieces, second);
            self.ask(
                number,
                Call {
                    kind,
                    call,
                    configuration,
                    numbers,
                },
                input,
            );
        }
    }

    /// Writes the value of the input in each way, where there is one.
    fn ask_writing(
        &mut self,
        number: u64,
        kind: &Kind,
        configuration: usize,
        random: &mut Random,
        input: &[u8],
    ) {
        let written = Call {
            kind,
            call: TO_VECTOR,
            configuration,
            numbers: (0, 0),
        };
        let Answer::Fine(length, _) = written.ask(Side::Original, input) else {
            return;
        };
        self.counts.fine += 1;
        let length = length as usize;
        let few = |random: &mut Random| random.below(length.max(1));
        let pieces = 1 + random.below(9);
        let (short, shorter, breaks) = (few(random), few(random), random.below(length + 2));
        for (call, numbers) in [
            (TO_COUNT, (0, 0)),
            (TO_VECTOR, (0, 0)),
            (TO_SLICE, (length, 0)),
            (TO_SLICE, (length + 1 + random.below(4), 0)),
            (TO_SLICE, (short, 0)),
            (TO_SLICE, (shorter, 0)),
            (TO_STREAM, (pieces, usize::MAX)),
            (TO_STREAM, (pieces, breaks)),
        ] {
            if kind.has(call, configuration) {
                self.ask(
                    number,
                    Call {
                        kind,
                        call,
                        configuration,
                        numbers,
                    },
                    input,
                );
            }
        }
    }

    /// Reads the NaNs of `draw::nans` of each type that is a float, in the four settings in turn, by a half of so many calls: each of them, or each
    /// of some.
    fn ask_nans(&mut self, calls: u64) {
        let kinds = self.kinds;
        let floats: Vec<_> = kinds
            .iter()
            .filter_map(|kind| match kind.shape {
                Shape::Float { width } => Some((kind, draw::nans(width))),
                _ => None,
            })
            .collect();
        let count: usize = floats.iter().map(|(_, nans)| nans.len()).sum();
        let step = count.div_ceil((calls as usize / 2).max(1)).max(1);
        for (kind, nans) in floats {
            for (number, nan) in nans.iter().step_by(step).enumerate() {
                let call = Call {
                    kind,
                    call: kind.reading(),
                    configuration: number % SETTINGS.len(),
                    numbers: (0, 0),
                };
                let mut input = nan.clone();
                if call.setting().is_big {
                    input.reverse();
                }
                self.counts.nans += 1;
                self.ask(number as u64, call, &input);
            }
        }
    }

    fn ask_all(&mut self, number: u64) {
        let random = &mut Random::new(self.seed, number);
        let kinds = self.kinds;
        let place = random.below(kinds.len());
        let kind = &kinds[place];
        let (setting, sort) = (random.below(4), random.below(SORTS.len()));
        let reading = Call {
            kind,
            call: kind.reading(),
            configuration: setting,
            numbers: (0, 0),
        };
        let input = draw::input(random, sort, &kind.shape, SETTINGS[setting], |word| {
            let size = size_of_input(&reading, word);
            match reading.ask(Side::Original, word) {
                Answer::Fine(_, bytes) if !size.is_large && !size.is_endless => Some(bytes),
                _ => None,
            }
        });
        self.counts.inputs[sort] += 1;
        let size = size_of_input(&reading, &input);
        if size.is_endless {
            self.counts.endless += 1;
            return;
        }
        if size.is_large {
            self.counts.large += 1;
            if self.counts.apart.len() < APART {
                self.counts
                    .apart
                    .push((number, place, setting, input.clone()));
            }
        } else {
            self.ask_reading(number, kind, setting, random, &input);
            self.ask_writing(number, kind, setting, random, &input);
        }
        for (configuration, of) in CONFIGURATIONS.iter().enumerate() {
            if of.setting == setting && of.limit.is_some() {
                self.ask_reading(number, kind, configuration, random, &input);
            }
        }
    }
}

/// Takes blocks of inputs until there were enough calls.
fn work(
    kinds: &[Kind],
    seed: u64,
    calls: u64,
    is_first: bool,
    next: &AtomicU64,
    made: &AtomicU64,
) -> (Counts, Vec<Found>) {
    let mut job = Job {
        kinds,
        seed,
        rooms: [vec![0; ROOM], vec![0; ROOM]],
        counts: Counts::default(),
        found: vec![],
        files: None,
    };
    // the first job alone
    if is_first {
        job.ask_nans(calls);
        made.fetch_add(job.counts.calls, Ordering::Relaxed);
    }
    while made.load(Ordering::Relaxed) < calls {
        let before = job.counts.calls;
        let first = BLOCK * next.fetch_add(1, Ordering::Relaxed);
        (first..first + BLOCK).for_each(|number| job.ask_all(number));
        made.fetch_add(job.counts.calls - before, Ordering::Relaxed);
    }
    (job.counts, job.found)
}

/// Reads inputs with a large container without a limit, in processes of their own.
fn ask_apart_all(counts: &mut Counts, found: &mut Vec<Found>) {
    panic::set_hook(Box::new(|_| {}));
    let mut asked = std::mem::take(&mut counts.apart);
    asked.sort();
    asked.truncate(APART);
    for (number, place, configuration, input) in asked {
        let kind = Kind::of(place);
        let call = Call {
            kind: &kind,
            call: kind.reading(),
            configuration,
            numbers: (0, 0),
        };
        let [original, port] =
            [Side::Original, Side::Port].map(|side| ask_apart(&call, side, &input));
        counts.calls += 1;
        counts.by_call[call.call] += 1;
        counts.apart_calls += 1;
        if original == port {
            continue;
        }
        let reasons = if is_memory(&call, &input, &original, &port) {
            Some(vec![Reason::Memory])
        } else {
            explain_answers(&call, &input, &original, &port)
        };
        if let Some(reasons) = reasons {
            for reason in reasons {
                *counts.reasons.entry(reason).or_default() += 1;
            }
            continue;
        }
        counts.unexplained += 1;
        let text = format!(
            "type {}, {}, {}, in a process of its own, input {}\n    original: {original}\n    port:     {port}",
            kind.row.name,
            CALLS[call.call],
            CONFIGURATIONS[configuration].name,
            hex(&input),
        );
        found.push(Found { number, text });
    }
}

fn print(counts: &Counts, found: &mut [Found]) {
    println!("inputs: {}", counts.inputs.iter().sum::<u64>());
    for (sort, count) in SORTS.iter().zip(counts.inputs) {
        println!("  {count:>12} {sort}");
    }
    println!(
        "  {:>12} of them have a container too large to be read without a limit, save in {} processes of their own",
        counts.large, counts.apart_calls
    );
    println!(
        "  {:>12} of them are not read, since they have too many items without bytes",
        counts.endless
    );
    println!(
        "  {:>12} of them begin with a value, which was written again",
        counts.fine
    );
    println!("NaNs that were read one after the other: {}", counts.nans);
    println!("calls of each side: {}", counts.calls);
    for (call, count) in CALLS.iter().zip(counts.by_call) {
        println!("  {count:>12} {call}");
    }
    print_differences(counts, found);
}

fn print_differences(counts: &Counts, found: &mut [Found]) {
    println!("differences that docs/DIFFERENCES.md names:");
    for (reason, count) in &counts.reasons {
        println!("  {count:>12} {reason:?}: {}", reason.row());
    }
    println!("differences that nothing explains: {}", counts.unexplained);
    found.sort_by_key(|found| found.number);
    for found in found.iter().take(TOLD) {
        println!("  {}", found.text);
    }
}

fn number_of(word: Option<&String>) -> u64 {
    word.and_then(|word| word.parse().ok()).expect("a number")
}

/// Asks both sides.
fn ask_both(words: &[String]) -> ExitCode {
    let [calls, seed, jobs] = [0, 1, 2].map(|at| number_of(words.get(at)));
    println!(
        "seed {seed}, {} types, {} configurations, {jobs} jobs",
        ROWS.len(),
        CONFIGURATIONS.len()
    );
    let start = Instant::now();
    let (next, made) = (AtomicU64::new(0), AtomicU64::new(0));
    let whole = Mutex::new((Counts::default(), vec![]));
    thread::scope(|scope| {
        for job in 0..jobs {
            let (next, made, whole) = (&next, &made, &whole);
            scope.spawn(move || {
                let kinds = Kind::all();
                let (counts, found) = work(&kinds, seed, calls, job == 0, next, made);
                let mut whole = whole.lock().expect("a job failed");
                whole.0.add(&counts);
                whole.1.extend(found);
            });
        }
    });
    let (mut counts, mut found) = whole.into_inner().expect("a job failed");
    ask_apart_all(&mut counts, &mut found);
    print(&counts, &mut found);
    println!("{:.0} s", start.elapsed().as_secs_f64());
    if counts.unexplained == 0 {
        ExitCode::SUCCESS
    } else {
        ExitCode::FAILURE
    }
}

/// Writes calls with the original's answers into files.
fn write_calls(words: &[String]) -> ExitCode {
    let [calls, seed, part, parts] = [0, 1, 3, 4].map(|at| number_of(words.get(at)));
    let mut kinds = Kind::all();
    kinds.retain(|kind| kind.place as u64 % parts == part);
    let mut job = Job {
        kinds: &kinds,
        seed,
        rooms: [vec![0; ROOM], vec![0; ROOM]],
        counts: Counts::default(),
        found: vec![],
        files: Some(Files::new(words.get(2).expect("a folder"))),
    };
    job.ask_nans(calls);
    let nans = job.counts.nans;
    let mut number = 0;
    while job.counts.calls < calls {
        job.ask_all(number);
        number += 1;
    }
    job.files
        .as_mut()
        .expect("it has files")
        .end()
        .expect("the folder of calls is there");
    println!(
        "seed {seed}, {} types, {nans} NaNs in turn, {number} inputs, {} calls",
        kinds.len(),
        job.counts.calls
    );
    ExitCode::SUCCESS
}

/// Tells of a call that another program answers otherwise, unless there is a reason.
fn judge_call(
    counts: &mut Counts,
    call: &Call<'_>,
    input: &[u8],
    original: &[u8],
    port: &[u8],
) -> Option<Found> {
    let rooms = Rooms {
        original,
        port,
        counts: (original.len(), port.len()),
    };
    if let Some(reasons) = explain(call, input, &rooms) {
        for reason in reasons {
            *counts.reasons.entry(reason).or_default() += 1;
        }
        return None;
    }
    counts.unexplained += 1;
    let (one, other) = rooms.answers();
    let text = format!(
        "type {} ({}), {}, {}, numbers {:?}, input {}\n    original: {one}\n    port:     {other}",
        call.kind.row.name,
        call.kind.row.text,
        CALLS[call.call],
        CONFIGURATIONS[call.configuration].name,
        call.numbers,
        hex(input),
    );
    // The shortest come first.
    Some(Found {
        number: input.len() as u64,
        text,
    })
}

/// Tells where the answers of other programs differ.
fn judge(words: &[String]) -> ExitCode {
    let (folder, parts) = (words.first().expect("a folder"), number_of(words.get(1)));
    let kinds = Kind::all();
    let (mut counts, mut found) = (Counts::default(), vec![]);
    let mut are_all_there = true;
    for part in 0..parts {
        let answers =
            fs::read_to_string(format!("{folder}/answers_{part}")).expect("the answers are there");
        let told = told(&answers);
        let files = fs::read_dir(format!("{folder}/{part}")).expect("the calls are there");
        are_all_there &= told.len() == files.count();
        for (file, differing) in told {
            let calls = fs::read(format!("{folder}/{part}/{file}")).expect("the calls are there");
            counts.calls += count_calls(&kinds, &calls);
            for (at, port) in differing {
                let asked = asked_at(&kinds, &calls, at).expect("a call is there");
                found.extend(judge_call(
                    &mut counts,
                    &asked.call,
                    &asked.input,
                    &asked.answer,
                    &port,
                ));
            }
        }
    }
    println!(
        "{} calls of {} types were answered by programs that are not proved",
        counts.calls,
        ROWS.len()
    );
    print_differences(&counts, &mut found);
    if !are_all_there {
        println!("not all calls were answered");
    }
    match (counts.unexplained, are_all_there) {
        (_, false) => ExitCode::from(2),
        (0, true) => ExitCode::SUCCESS,
        _ => ExitCode::FAILURE,
    }
}

fn main() -> ExitCode {
    let words: Vec<String> = env::args().skip(1).collect();
    match words.first().map(String::as_str) {
        Some("write") => write_calls(&words[1..]),
        Some("judge") => judge(&words[1..]),
        _ => ask_both(&words),
    }
}
