//! Measures the library and, if it is present, the Rust crate, in turn in one process. Prints a table of ratios: above 1
//! the library is slower.

mod cases;
mod keys;
mod large;
#[cfg(feature = "theirs")]
mod theirs;

use cases::Case;
use sfv_c::{Answer, Row, NOTHING, OK, RFC9651};
use std::hint::black_box;

/// A measured task.
#[derive(Clone, Copy)]
pub enum Task {
    /// Parsing into a tree, and writing its canonical text.
    Canonical,
    /// Parsing with every part ignored.
    Check,
    /// Parsing into a list of parts.
    Parse,
    /// Writing the canonical text of a list of parts.
    Write,
}

const TASKS: [Task; 4] = [Task::Canonical, Task::Check, Task::Parse, Task::Write];

/// The library's side, with the buffers that its calls need.
struct Ours<'a> {
    out: Vec<u8>,
    /// The rows of the field, which point into it and into the room.
    rows: Vec<Row<'a>>,
    room: Vec<u8>,
    parsed: Answer,
}

impl<'a> Ours<'a> {
    /// Only with a buffer for the text.
    fn writing(case: &Case) -> Ours<'a> {
        Ours { out: vec![0; 4 * case.field.len() + 16], rows: Vec::new(), room: Vec::new(), parsed: Answer::default() }
    }

    fn new(case: &'a Case) -> Ours<'a> {
        let mut ours = Ours::writing(case);
        ours.rows = vec![Row::default(); sfv_c::rows_for(case.field.len())];
        ours.room = vec![0; case.field.len()];
        ours.parsed = ours.parse(case, &case.field);
        ours
    }

    fn parse(&mut self, case: &Case, field: &'a [u8]) -> Answer {
        // SAFETY: The room is neither moved nor read while the rows are used. Each call writes the rows again.
        let room = unsafe { std::slice::from_raw_parts_mut(self.room.as_mut_ptr(), self.room.len()) };
        sfv_c::parse(case.kind, RFC9651, field, &mut self.rows, room)
    }

    fn run(&mut self, case: &'a Case, task: Task) -> Answer {
        let field = black_box(&case.field[..]);
        match task {
            Task::Canonical => sfv_c::canonical(case.kind, RFC9651, RFC9651, case.seed, field, &mut self.out),
            Task::Check => sfv_c::check(case.kind, RFC9651, field),
            Task::Parse => self.parse(case, field),
            Task::Write => {
                sfv_c::write(case.kind, RFC9651, black_box(&self.rows[..self.parsed.rows]), &mut self.out)
            }
        }
    }
}

/// A time of Linux's clocks.
#[repr(C)]
struct Time {
    seconds: i64,
    nanoseconds: i64,
}

extern "C" {
    fn clock_gettime(clock: i32, time: *mut Time) -> i32;
}

/// The processor time of this process, in nanoseconds.
fn processor_time() -> f64 {
    const PROCESS: i32 = 2;
    let mut time = Time { seconds: 0, nanoseconds: 0 };
    assert_eq!(unsafe { clock_gettime(PROCESS, &mut time) }, 0, "no such clock");
    time.seconds as f64 * 1e9 + time.nanoseconds as f64
}

/// The nanoseconds of a run, in a batch of this size.
fn time(batch: u32, mut run: impl FnMut()) -> f64 {
    let start = processor_time();
    for _ in 0..batch {
        run();
    }
    (processor_time() - start) / f64::from(batch)
}

/// The least time of each side, in this number of rounds.
fn measure(case: &Case, task: Task, rounds: u32) -> (f64, Option<f64>) {
    let mut ours = Ours::new(case);
    #[cfg(feature = "theirs")]
    let mut theirs = theirs::Theirs::new(case);
    let mut our_run = || {
        black_box(ours.run(case, task));
    };
    let mut their_run = || {
        #[cfg(feature = "theirs")]
        theirs.run(case, task);
    };
    let batch = (5e5 / time(1, &mut our_run).min(time(9, &mut our_run))).clamp(1.0, 1e4) as u32;
    let (mut our_time, mut their_time) = (f64::MAX, f64::MAX);
    for _ in 0..rounds {
        our_time = our_time.min(time(batch, &mut our_run));
        if cfg!(feature = "theirs") {
            their_time = their_time.min(time(batch, &mut their_run));
        }
    }
    (our_time, cfg!(feature = "theirs").then_some(their_time))
}

/// The model of the processor.
fn processor() -> String {
    let info = std::fs::read_to_string("/proc/cpuinfo").unwrap_or_default();
    let model = info.lines().find_map(|line| line.strip_prefix("model name")?.split_once(": "));
    model.map_or("unknown".to_string(), |(_, name)| name.to_string())
}

/// The cells of a task. A rejected field has no text to write.
fn cells(case: &Case, task: Task, rounds: u32) -> String {
    if matches!(task, Task::Write) && !case.accepted {
        return "|".to_string();
    }
    let (ours, theirs) = measure(case, task, rounds);
    match theirs {
        Some(theirs) => format!("{:.2} | {ours:.0}", ours / theirs),
        None => format!("| {ours:.0}"),
    }
}

fn main() {
    let args: Vec<String> = std::env::args().skip(1).collect();
    if let [one, side, place] = &args[..] {
        assert_eq!(one, "one");
        return large::run_one(side, place.parse().expect("a number"));
    }
    let rounds = args.first().map_or(40, |arg| arg.parse().expect("a number of rounds"));
    let with = if cfg!(feature = "theirs") { "and the Rust crate" } else { "alone, without the Rust crate" };
    println!("The library {with}, on {}, least of {rounds} rounds.\n", processor());
    println!("| field | bytes | tree and text | ns | ignored | ns | list of parts | ns | written | ns |");
    println!("|---|--:|--:|--:|--:|--:|--:|--:|--:|--:|");
    for case in cases::all() {
        let answer = Ours::new(&case).run(&case, Task::Canonical);
        let accepted = answer.status == OK || answer.status == NOTHING;
        assert_eq!(accepted, case.accepted, "{}: {answer:?}", case.name);
        let cells = TASKS.map(|task| cells(&case, task, rounds));
        println!("| {} | {} | {} |", case.name, case.field.len(), cells.join(" | "));
    }
    large::print();
}
