//! Compares the proved monitor with plain Rust: one run call on the same bytes,
//! nanoseconds a request. One side of plain Rust has the algorithm of a monitor
//! that walks what a person did at each request; the other gathers it once and
//! keeps it. All must give the same. Then one judge, the load of a book, and plans
//! of 64 jobs. At the end it prints the bars; the exit status is not 0 if one is
//! missed.

mod alone;
mod bars;
mod baseline;
mod gathering;
mod inputs;
mod keeping;
mod kinds;
mod planning;
mod plans;
mod shared;
mod tables;

use bars::Row;
use inputs::{inputs, Input, Lent, Workload, MONTH, ONE_JUDGE, ONE_REQUEST, WORKLOADS};
use plans::{List, LISTS, PLANS};
use shared::{HISTORY_BYTES, LEVELS_BYTES};
use std::env;
use std::hint::black_box;
use std::process::{Command, ExitCode};
use std::time::Instant;

/// All rows are measured in so many passes, each by a process of its own: which
/// pages of memory a process gets is drawn anew for each, and with some of them
/// the same code takes half as long again. Other work on the machine, which
/// comes and goes, does not fall on all passes of one row either.
const PASSES: usize = 8;

/// In each round of a pass each side runs every input of a row once, in turns;
/// the quickest run of an input counts, of all rounds of all passes.
const ROUNDS: usize = 4;

/// The argument with which a process makes one pass.
const PASS: &str = "--pass";

/// One measurement of loading is so many loads of one book.
const LOADS: usize = 100;

/// All rules, each rule alone (wall, low-water, roles, pipeline), and no rule.
const MASKS: [u8; 6] = [15, 1, 2, 0, 4, 8];
const NO_RULE: u8 = 0;

const HEADING: &str =
    "| workload | mask | requests | granted | proved, ns | plain Rust, ns | ratio | keeping Rust, ns | ratio |
|---|---|---|---|---|---|---|---|---|";

const PLANS_HEADING: &str =
    "| plan of 64 jobs | mask | in an order | proved, ns | plain Rust, ns | ratio |
|---|---|---|---|---|---|";

/// The memory on which every side runs, one after another.
struct Ground {
    lent: Lent,
    answers: Vec<u8>,
}

impl Ground {
    fn new() -> Ground {
        Ground {
            lent: Lent {
                history: vec![0; HISTORY_BYTES],
                levels: vec![0; LEVELS_BYTES],
            },
            answers: vec![0; MONTH],
        }
    }
}

/// What a run leaves: its number and counts, history and levels, and the answers.
type Left = ((u8, usize, usize), Lent, Vec<u8>);

/// One run on history and levels: what it leaves and the nanoseconds that it
/// took.
fn timed(
    ground: &mut Ground,
    run: impl Fn(&mut Lent, &mut [u8]) -> (u8, usize, usize),
    first: &Lent,
    count: usize,
) -> (Left, f64) {
    let lent = &mut ground.lent;
    lent.history.copy_from_slice(&first.history);
    lent.levels.copy_from_slice(&first.levels);
    let answers = &mut ground.answers[..count];
    answers.fill(99);
    let start = Instant::now();
    let ran = run(black_box(lent), black_box(answers));
    let nanoseconds = start.elapsed().as_nanos() as f64;
    ((ran, lent.clone(), answers.to_vec()), nanoseconds)
}

/// What all sides grant of an input, and the nanoseconds of the proved run, the
/// plain one and the one that keeps.
fn all_runs(ground: &mut Ground, input: &Input, count: usize) -> (usize, [f64; 3]) {
    let (book, requests) = (&input.book, &input.requests);
    let proved = |lent: &mut Lent, answers: &mut [u8]| {
        let Lent { history, levels } = lent;
        let ran = kweldabe::run(book, history, levels, requests, answers);
        let ran = ran.expect("short requests");
        (ran.number, ran.granted, ran.refused)
    };
    let plain = |lent: &mut Lent, answers: &mut [u8]| {
        baseline::run(book, &mut lent.history, &mut lent.levels, requests, answers)
    };
    let keeping = |lent: &mut Lent, answers: &mut [u8]| {
        keeping::run(book, &mut lent.history, &mut lent.levels, requests, answers)
    };
    let (left, ours) = timed(ground, proved, &input.first, count);
    let (plain_left, theirs) = timed(ground, plain, &input.first, count);
    let (keeping_left, kept) = timed(ground, keeping, &input.first, count);
    assert!(left == plain_left, "proved and plain differ");
    assert!(left == keeping_left, "proved and keeping differ");
    assert_eq!(left.0 .0, 0);
    (left.0 .1, [ours, theirs, kept])
}

/// One judge of an input: 1 if it is granted, and the nanoseconds of the proved
/// and of the plain side.
fn all_judges(_: &mut Ground, input: &Input, _: usize) -> (usize, [f64; 2]) {
    let Lent { history, levels } = &input.first;
    let (book, request) = (black_box(&input.book), black_box(&input.requests));
    let start = Instant::now();
    let proved = black_box(kweldabe::judge(book, history, levels, request));
    let ours = start.elapsed().as_nanos() as f64;
    let start = Instant::now();
    let plain = black_box(alone::judge_alone(book, history, levels, request));
    let theirs = start.elapsed().as_nanos() as f64;
    assert_eq!(proved, plain);
    (usize::from(proved == 0), [ours, theirs])
}

/// One load of a book by each side: the nanoseconds.
fn all_loads(_: &mut Ground, input: &Input, _: usize) -> (usize, [f64; 2]) {
    let book = black_box(&input.book);
    let start = Instant::now();
    for _ in 0..LOADS {
        assert_eq!(kweldabe::load(black_box(book)).number, 0);
    }
    let ours = start.elapsed().as_nanos() as f64;
    let start = Instant::now();
    for _ in 0..LOADS {
        assert!(black_box(&tables::load(black_box(book))).is_ok());
    }
    let theirs = start.elapsed().as_nanos() as f64;
    (0, [ours, theirs])
}

/// A row to be measured: so many inputs, what is granted of each, and each
/// side's quickest run of each.
struct Measured<const SIDES: usize> {
    workload: &'static Workload,
    mask: u8,
    granted: Vec<usize>,
    best: Vec<[f64; SIDES]>,
}

impl<const SIDES: usize> Measured<SIDES> {
    fn of(workload: &'static Workload, mask: u8) -> Measured<SIDES> {
        Measured {
            workload,
            mask,
            granted: vec![0; workload.inputs],
            best: vec![[f64::MAX; SIDES]; workload.inputs],
        }
    }

    /// One pass: prints what is granted of each input and the quickest runs.
    fn pass(
        &mut self,
        ground: &mut Ground,
        inputs: Vec<Input>,
        measure: impl Fn(&mut Ground, &Input, usize) -> (usize, [f64; SIDES]),
    ) {
        for _ in 0..ROUNDS {
            for (k, input) in inputs.iter().enumerate() {
                let (zeros, times) = measure(ground, input, self.workload.requests);
                self.take(k, zeros, times);
            }
        }
        for (granted, times) in self.granted.iter().zip(&self.best) {
            println!("{granted} {}", times.map(|time| time.to_string()).join(" "));
        }
    }

    fn take(&mut self, k: usize, zeros: usize, times: [f64; SIDES]) {
        self.granted[k] = zeros;
        for (best, time) in self.best[k].iter_mut().zip(times) {
            *best = time.min(*best);
        }
    }

    /// Takes the figures of a pass from its lines.
    fn read<'a>(&mut self, lines: &mut impl Iterator<Item = &'a str>) {
        for k in 0..self.workload.inputs {
            let mut words = lines.next().expect("a line for each input").split(' ');
            let mut word = || words.next().expect("a figure for each side");
            let zeros = word().parse().expect("a count");
            let times = [(); SIDES].map(|()| word().parse().expect("nanoseconds"));
            self.take(k, zeros, times);
        }
    }

    /// For each side the sum of the quickest runs.
    fn sums(&self) -> [f64; SIDES] {
        let mut sums = [0.0; SIDES];
        for times in &self.best {
            for (sum, time) in sums.iter_mut().zip(times) {
                *sum += time;
            }
        }
        sums
    }

    /// Prints the row: nanoseconds a request of the proved side, of plain Rust
    /// and, if there is a third, of the run that keeps.
    fn row(&self) -> Row {
        let requests = self.workload.inputs * self.workload.requests;
        let sums = self.sums().map(|sum| sum / requests as f64);
        let row = Row {
            name: self.workload.name,
            mask: self.mask,
            dense: self.workload.dense,
            requests,
            granted: self.granted.iter().sum(),
            proved: sums[0],
            plain: sums[1],
            keeping: sums.get(2).copied(),
        };
        println!("{row}");
        row
    }
}

impl Measured<2> {
    /// Prints a row of plans: nanoseconds a plan of each side.
    fn print_plan(&self) {
        let [proved, plain] = self.sums().map(|sum| sum / PLANS as f64);
        let (name, granted) = (self.workload.name, self.granted[0]);
        print!("| {name} | {} | {granted} | ", self.mask);
        println!("{proved:.0} | {plain:.0} | {:.2} |", proved / plain);
    }
}

/// All that is measured.
struct Figures {
    runs: Vec<Measured<3>>,
    one_requests: [Measured<3>; 4],
    one_judges: [Measured<2>; 3],
    loads: Measured<2>,
    plans: [Measured<2>; 8],
}

impl Figures {
    fn new() -> Figures {
        let mut runs = Vec::new();
        for workload in &WORKLOADS {
            for mask in MASKS {
                if mask != NO_RULE || !workload.dense {
                    runs.push(Measured::of(workload, mask));
                }
            }
        }
        Figures {
            runs,
            one_requests: [15, 1, 4, 0].map(|mask| Measured::of(&ONE_REQUEST, mask)),
            one_judges: [15, 1, 4].map(|mask| Measured::of(&ONE_JUDGE, mask)),
            loads: Measured::of(&ONE_REQUEST, MASKS[0]),
            plans: LISTS
                .each_ref()
                .map(|list| Measured::of(&list.workload, list.mask)),
        }
    }

    fn pass(&mut self) {
        let mut ground = Ground::new();
        for row in self.runs.iter_mut().chain(&mut self.one_requests) {
            row.pass(&mut ground, inputs(row.workload, row.mask), all_runs);
        }
        for row in self.one_judges.iter_mut() {
            row.pass(&mut ground, inputs(row.workload, row.mask), all_judges);
        }
        let loads = inputs(self.loads.workload, self.loads.mask);
        self.loads.pass(&mut ground, loads, all_loads);
        for (row, list) in self.plans.iter_mut().zip(&LISTS) {
            row.pass(&mut ground, list.inputs(), |_, input, _| {
                list.all_plans(input)
            });
        }
    }

    fn read(&mut self, text: &str) {
        let mut lines = text.lines();
        for row in self.runs.iter_mut().chain(&mut self.one_requests) {
            row.read(&mut lines);
        }
        for row in &mut self.one_judges {
            row.read(&mut lines);
        }
        self.loads.read(&mut lines);
        for row in &mut self.plans {
            row.read(&mut lines);
        }
    }

    /// Prints the table and the bars: whether all hold.
    fn report(&self) -> bool {
        println!("{HEADING}");
        let runs: Vec<Row> = self.runs.iter().map(Measured::row).collect();
        let one_requests = self.one_requests.each_ref().map(Measured::row);
        for row in &self.one_judges {
            row.row();
        }
        let loads = self.loads.workload.inputs * LOADS;
        let [proved, plain] = self.loads.sums().map(|sum| sum / loads as f64);
        let load = proved / plain;
        println!("\nload of a full book: proved {proved:.1} ns, plain Rust {plain:.1} ns, ratio {load:.2}\n");
        println!("{PLANS_HEADING}");
        for row in &self.plans {
            row.print_plan();
        }
        println!();
        bars::hold(&runs, &one_requests, load)
    }
}

fn main() -> ExitCode {
    let mut figures = Figures::new();
    if env::args().any(|word| word == PASS) {
        figures.pass();
        return ExitCode::SUCCESS;
    }
    LISTS.iter().for_each(List::expect_right);
    let own = env::current_exe().expect("the benchmark's own file");
    for _ in 0..PASSES {
        let pass = Command::new(&own).arg(PASS).output().expect("a process");
        assert!(
            pass.status.success(),
            "{}",
            String::from_utf8_lossy(&pass.stderr)
        );
        figures.read(&String::from_utf8_lossy(&pass.stdout));
    }
    match figures.report() {
        true => ExitCode::SUCCESS,
        false => ExitCode::FAILURE,
    }
}
