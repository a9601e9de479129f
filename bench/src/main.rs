//! Times our static library and the published Rust on the same inputs, in one process, in turn.
//!
//! ```text
//! bench [FOLDER]                   prints the tables; in FOLDER it leaves them as table.md, and the plot as plot.svg
//! bench spin WHOSE WHAT N ROUNDS   works through one family without a clock, for an instruction count: WHOSE is ours or published,
//!                                  WHAT is mixed, done, sorted, reversed, barred, mirrored, reasons, changed or search
//! ```
use std::fmt::Write as _;
use std::hint::black_box;
use std::time::Instant;

use bench::inputs::{Case, Check, Family, Rng, cases, checks, mirrored};
use bench::published::{Atom, Checker, Domains, Published, atom, domains};
use bench::search::{Machine, Ours, Search, TaskSet, Theirs, instance};
use reedgrit::{Propagator, Range, Words, check};

const SIZES: [usize; 4] = [8, 16, 32, 48];
const CASES: usize = 400;
/// So many are timed together: the clock's own time is lost in theirs, and what they touch stays in the cache.
const BATCH: usize = 25;
const ROUNDS: usize = 101;
const SEED: u64 = 20_261_115;

/// One case, both ways, with all that a run needs.
struct Runner {
    case: Case,
    ours: Propagator,
    published: Published,
    our_ranges: Vec<Range>,
    their_ranges: Vec<Range>,
    their_domains: Domains,
}

impl Runner {
    fn new(family: Family, case: Case) -> Runner {
        let their_ranges = if family == Family::Mirrored { mirrored(&case.durations, &case.ranges) } else { case.ranges.clone() };
        Runner {
            ours: Propagator::new(&case.durations).expect("durations within the limits"),
            published: Published::new(&case.durations),
            our_ranges: case.ranges.clone(),
            their_domains: domains(&their_ranges),
            their_ranges,
            case,
        }
    }

    /// What is put in place for a run outside the clock: the ranges of both, and for the published Rust a new propagator and an empty post
    /// list that keeps its room. Our record is the one that the run before was lent, and our words are not cleared. No run changes a bar or a hole.
    fn ready(&mut self) {
        self.our_ranges.copy_from_slice(&self.case.ranges);
        self.published = Published::new(&self.case.durations);
        for (domain, range) in self.their_domains.ranges.iter_mut().zip(&self.their_ranges) {
            (domain.lower, domain.upper) = (range.earliest, range.latest);
        }
        self.their_domains.posts.clear();
    }
}

/// One check, both ways.
struct Checking {
    durations: Vec<i32>,
    premises: Vec<reedgrit::Atom>,
    consequent: Option<reedgrit::Atom>,
    checker: Checker,
    their_premises: Vec<Atom>,
    their_consequent: Option<Atom>,
}

impl Checking {
    fn new(one: Check) -> Checking {
        Checking {
            checker: Checker::new(&one.durations),
            their_premises: one.premises.iter().map(atom).collect(),
            their_consequent: one.consequent.as_ref().map(atom),
            durations: one.durations,
            premises: one.premises,
            consequent: one.consequent,
        }
    }
}

fn run_ours(family: Family, batch: &mut [Runner], words: &mut Words) {
    for one in batch {
        if family == Family::Mirrored {
            let _ = black_box(one.ours.run_mirrored(&mut one.our_ranges, words).map(|outcome| outcome.posts().len()));
        } else {
            let _ = black_box(one.ours.run(&mut one.our_ranges, words).map(|outcome| outcome.posts().len()));
        }
    }
}

fn run_published(batch: &mut [Runner]) {
    for one in batch {
        let _ = black_box(one.published.run(&mut one.their_domains));
    }
}

fn check_ours(batch: &[Checking]) {
    for one in batch {
        let _ = black_box(check(black_box(&one.durations), &one.premises, one.consequent));
    }
}

fn check_published(batch: &[Checking]) {
    for one in batch {
        black_box(one.checker.check(black_box(&one.their_premises), one.their_consequent));
    }
}

/// A family at one size: nanoseconds of one call, ours and theirs, and their ratio.
#[derive(Clone, Copy)]
struct Figure {
    ours: f64,
    published: f64,
    ratio: f64,
}

fn median(mut numbers: Vec<f64>) -> f64 {
    numbers.sort_by(f64::total_cmp);
    numbers[numbers.len() / 2]
}

/// Rounds in turn: in each, every batch is timed on both sides, and which side goes first changes. A batch's time is its median over the
/// rounds, so that what else the machine does in some of them does not count; a call's is the mean over the batches.
fn figure<T>(
    items: &mut [T],
    mut ready: impl FnMut(&mut T),
    mut ours: impl FnMut(&mut [T]),
    mut published: impl FnMut(&mut [T]),
) -> Figure {
    let count = items.len() as f64;
    let mut times = vec![[Vec::new(), Vec::new()]; items.len().div_ceil(BATCH)];
    for round in 0..ROUNDS + 2 {
        for (number, batch) in items.chunks_mut(BATCH).enumerate() {
            batch.iter_mut().for_each(&mut ready);
            for turn in 0..2 {
                let side = (turn + number + round) % 2;
                let began = Instant::now();
                if side == 0 {
                    ours(batch)
                } else {
                    published(batch)
                }
                // the first two rounds fill caches and give lists their room
                if round >= 2 {
                    times[number][side].push(began.elapsed().as_nanos() as f64);
                }
            }
        }
    }
    let call = |side: usize| times.iter().map(|batch| median(batch[side].clone())).sum::<f64>() / count;
    Figure { ours: call(0), published: call(1), ratio: call(0) / call(1) }
}

fn runners(family: Family, n: usize) -> Vec<Runner> {
    cases(family, n, CASES, SEED).into_iter().map(|case| Runner::new(family, case)).collect()
}

fn runs(family: Family, n: usize) -> Figure {
    let mut runners = runners(family, n);
    let mut words = Words::new(n);
    figure(&mut runners, Runner::ready, |batch| run_ours(family, batch, &mut words), run_published)
}

fn check_figures(changed: bool, n: usize) -> Figure {
    let mut items: Vec<Checking> = checks(n, CASES, changed, SEED).into_iter().map(Checking::new).collect();
    figure(&mut items, |_| (), |batch| check_ours(batch), |batch| check_published(batch))
}

const SEARCHES: usize = 400;
const NODES: usize = 2_000;

/// One library's searches: how many nodes in all, and how many seconds.
fn searched<M: Machine>(n: usize, machine: impl Fn(&[i32]) -> M) -> (usize, f64) {
    let mut rng = Rng::new(SEED);
    let (mut nodes, mut seconds) = (0, 0.0);
    for _ in 0..SEARCHES {
        let (durations, ranges) = instance(&mut rng, n);
        let mut search = Search { machine: machine(&durations), durations: &durations, nodes: 0, most: NODES };
        let began = Instant::now();
        black_box(search.found(ranges, TaskSet::all(n)));
        seconds += began.elapsed().as_secs_f64();
        nodes += search.nodes;
    }
    (nodes, seconds)
}

/// How many times the nodes a second of the published Rust, at each size.
type Ratios = [f64; 4];

/// The same searches on both sides, nine times in turn; the middle of each side's times.
fn search_table() -> (String, Ratios) {
    let mut ratios = [0.0; 4];
    let mut text = String::from("| search | nodes | ours, nodes a second | published | ratio |\n|---|---|---|---|---|\n");
    for (n, ratio) in SIZES.into_iter().zip(&mut ratios) {
        let (mut ours, mut theirs) = (Vec::new(), Vec::new());
        let mut visited = [0, 0];
        for _ in 0..9 {
            let (nodes, seconds) = searched(n, Ours::new);
            visited[0] = nodes;
            ours.push(seconds);
            let (nodes, seconds) = searched(n, Theirs::new);
            visited[1] = nodes;
            theirs.push(seconds);
        }
        assert_eq!(visited[0], visited[1], "both sides narrow the same");
        let (ours, theirs) = (visited[0] as f64 / median(ours), visited[0] as f64 / median(theirs));
        *ratio = ours / theirs;
        let _ = writeln!(text, "| n = {n} | {} | {ours:.0} | {theirs:.0} | **{ratio:.2}** |", visited[0]);
    }
    (text, ratios)
}

struct Row {
    what: &'static str,
    family: &'static str,
    figures: [Figure; 4],
}

/// By which power of n the time grows from the least size to the greatest.
fn growth(times: [f64; 4]) -> f64 {
    (times[3] / times[0]).ln() / (SIZES[3] as f64 / SIZES[0] as f64).ln()
}

/// The limit: what the same algorithm takes in C, written by hand with the same answers, of the published Rust's time. It was measured once, on another
/// machine; there is none for the mirrored pass.
fn limit(family: &str) -> Option<[f64; 4]> {
    Some(match family {
        "mixed" => [0.19, 0.18, 0.17, 0.19],
        "done" => [0.21, 0.20, 0.18, 0.21],
        "sorted" => [0.20, 0.17, 0.16, 0.16],
        "reversed" => [0.16, 0.14, 0.16, 0.17],
        "barred" => [0.30, 0.25, 0.24, 0.24],
        "reasons" | "changed" => [0.10, 0.08, 0.07, 0.07],
        _ => return None,
    })
}

/// A line for each series; a cell has our time and the published Rust's, their ratio, and the limit.
fn table(rows: &[Row]) -> String {
    let mut text = String::from("| call | inputs | n = 8 | n = 16 | n = 32 | n = 48 | grows as |\n|---|---|---|---|---|---|---|\n");
    for row in rows {
        let limits = limit(row.family).map(|limits| limits.map(|limit| format!(" ({limit:.2})"))).unwrap_or_default();
        let cell = |(figure, limit): (&Figure, String)| {
            format!(" {:.0} / {:.0} ns **{:.2}**{limit} |", figure.ours, figure.published, figure.ratio)
        };
        let cells: String = row.figures.iter().zip(limits).map(cell).collect();
        let (ours, published) = (growth(row.figures.map(|figure| figure.ours)), growth(row.figures.map(|figure| figure.published)));
        let _ = writeln!(text, "| {} | {} |{cells} n^{ours:.2} / n^{published:.2} |", row.what, row.family);
    }
    text
}

/// Lines over n: a panel for runs, one for runs with barred starts, and one for checks.
fn plot(rows: &[Row]) -> String {
    let mut svg = String::from(
        "<svg xmlns=\"http://www.w3.org/2000/svg\" viewBox=\"0 0 1010 300\" font-family=\"sans-serif\" font-size=\"11\">\n\
         <rect width=\"1010\" height=\"300\" fill=\"white\"/>\n",
    );
    for (panel, (what, family)) in [("run", "mixed"), ("run", "barred"), ("check", "reasons")].into_iter().enumerate() {
        let Some(row) = rows.iter().find(|row| row.what == what && row.family == family) else { continue };
        let left = 50.0 + 330.0 * panel as f64;
        let top = row.figures.iter().map(|figure| figure.ours.max(figure.published)).fold(0.0, f64::max);
        let x = |n: usize| left + 270.0 * n as f64 / 48.0;
        let y = |time: f64| 250.0 - 210.0 * time / top;
        let _ = writeln!(svg, "<text x=\"{left}\" y=\"24\" font-size=\"13\">a {what} ({family}), microseconds over n</text>");
        let _ = writeln!(svg, "<path d=\"M{left} 40V250H{}\" fill=\"none\" stroke=\"black\"/>", left + 270.0);
        for n in SIZES {
            let _ = writeln!(svg, "<text x=\"{:.0}\" y=\"266\" text-anchor=\"middle\">{n}</text>", x(n));
        }
        for part in 1..=4 {
            let time = top * f64::from(part) / 4.0;
            let _ =
                writeln!(svg, "<text x=\"{:.0}\" y=\"{:.0}\" text-anchor=\"end\">{:.1}</text>", left - 5.0, y(time) + 4.0, time / 1000.0);
        }
        let sides: [(&str, &str, fn(&Figure) -> f64); 2] =
            [("ours", "#1b6ca8", |figure| figure.ours), ("published", "#b5541c", |figure| figure.published)];
        for (name, colour, of) in sides {
            let points: Vec<String> =
                SIZES.iter().zip(&row.figures).map(|(n, figure)| format!("{:.1},{:.1}", x(*n), y(of(figure)))).collect();
            let _ = writeln!(svg, "<polyline points=\"{}\" fill=\"none\" stroke=\"{colour}\" stroke-width=\"2\"/>", points.join(" "));
            let _ = writeln!(
                svg,
                "<text x=\"{:.0}\" y=\"{:.0}\" fill=\"{colour}\" text-anchor=\"end\">{name}</text>",
                x(46),
                y(of(&row.figures[3])) - 6.0
            );
        }
    }
    svg + "</svg>\n"
}

/// The bar: the time of a call beside the published Rust's, at every size, and the nodes a second of the search.
const RUNS: f64 = 0.40;
const CHECKS: f64 = 0.30;
const SEARCH: f64 = 2.0;

fn misses(rows: &[Row], ratios: Ratios) -> Vec<String> {
    let mut misses = Vec::new();
    for row in rows {
        let bar = if row.what == "run" { RUNS } else { CHECKS };
        for (n, figure) in SIZES.iter().zip(&row.figures).filter(|(_, figure)| figure.ratio > bar) {
            misses.push(format!("{} {} at n = {n}: {:.2} > {bar:.2}", row.what, row.family, figure.ratio));
        }
    }
    for (n, ratio) in SIZES.iter().zip(ratios).filter(|(_, ratio)| *ratio < SEARCH) {
        misses.push(format!("search at n = {n}: {ratio:.2} < {SEARCH:.2}"));
    }
    misses
}

fn measure(folder: Option<String>) {
    println!(
        "{CASES} inputs of each kind in batches of {BATCH}, {ROUNDS} rounds in turn, the medians of the rounds. Ours writes over what the run before"
    );
    println!(
        "left in its words; the published Rust gets, outside the clock, a new propagator for each run and an empty post list that keeps its room."
    );
    let mut rows = Vec::new();
    for family in Family::ALL {
        rows.push(Row { what: "run", family: family.name(), figures: SIZES.map(|n| runs(family, n)) });
    }
    for (changed, name) in [(false, "reasons"), (true, "changed")] {
        rows.push(Row { what: "check", family: name, figures: SIZES.map(|n| check_figures(changed, n)) });
    }
    let (searches, ratios) = search_table();
    let text = table(&rows) + "\n" + &searches;
    print!("{text}");
    let misses = misses(&rows, ratios);
    if misses.is_empty() {
        println!(
            "\nWithin the bar: runs at most {RUNS:.2}, checks at most {CHECKS:.2} of the time, the search at least {SEARCH:.1} times the nodes."
        );
    } else {
        println!("\nNot within the bar:\n{}", misses.join("\n"));
    }
    if let Some(folder) = folder {
        std::fs::write(format!("{folder}/table.md"), &text).expect("the folder can be written");
        std::fs::write(format!("{folder}/plot.svg"), plot(&rows)).expect("the folder can be written");
        println!("\n{folder}/table.md, {folder}/plot.svg");
    }
}

/// One side of one family, over and over, without a clock.
fn spin(whose: &str, what: &str, n: usize, rounds: usize) {
    let ours = whose == "ours";
    if what == "search" {
        for _ in 0..rounds {
            if ours {
                searched(n, Ours::new)
            } else {
                searched(n, Theirs::new)
            };
        }
        return;
    }
    if what == "reasons" || what == "changed" {
        let items: Vec<Checking> = checks(n, CASES, what == "changed", SEED).into_iter().map(Checking::new).collect();
        (0..rounds).for_each(|_| if ours { check_ours(&items) } else { check_published(&items) });
        return;
    }
    let family = Family::ALL.into_iter().find(|family| family.name() == what).expect("a family's name");
    let mut runners = runners(family, n);
    let mut words = Words::new(n);
    for _ in 0..rounds {
        runners.iter_mut().for_each(Runner::ready);
        if ours { run_ours(family, &mut runners, &mut words) } else { run_published(&mut runners) }
    }
}

fn main() {
    let arguments: Vec<String> = std::env::args().skip(1).collect();
    match arguments.iter().map(String::as_str).collect::<Vec<_>>()[..] {
        [] => measure(None),
        ["spin", whose, what, n, rounds] => {
            spin(whose, what, n.parse().expect("a number"), rounds.parse().expect("a number"));
        }
        [folder] => measure(Some(folder.to_string())),
        _ => eprintln!("usage: bench [FOLDER] | bench spin ours|published FAMILY N ROUNDS"),
    }
}
