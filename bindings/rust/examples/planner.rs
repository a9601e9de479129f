//! A planner on one machine, to learn the crate from: it reads registers, searches for a plan, prints it and draws it.
//!
//!     cargo run --example planner -- examples/registers.txt [plan.svg]
//!
//! A line of the file is a register: its name, earliest start, latest start and duration, and behind the word `not`, where there are any, the starts
//! between the two at which its reading may not begin, ascending, 16 at most. What is printed is a plan, a line for each register by start, or that
//! there is none: then why the registers cannot fit, in their own numbers, or else the reasons that the passes gave before the search branched.
//! The picture is of the plan, or of the conflict.
//!
//!     marriages-1688 12 25 7 not 15 16
//!
//! Exit status: 0 a plan; 1 there is none; 2 the file is unfit; 3 no answer, since a file cannot be read or written or the search grew too large.
use reedgrit::{Comparison, Conflict, Mirrored, Outcome, Propagator, Range, Reason, Refused, Verdict, Words, Work};
use std::fmt::Write;
use std::process::ExitCode;

/// A register that is to be read on the machine.
#[derive(Clone, Debug)]
struct Register {
    name: String,
    range: Range,
    duration: i32,
}

/// There is no plan in the ranges.
#[derive(Debug)]
struct NoPlan;

/// The search reached its limit of nodes.
#[derive(Debug)]
struct TooLarge;

/// The nodes that the search tries at most: some seconds.
const NODES: usize = 1_000_000;

/// Narrows the range that a reason's post is about, and says whether it changed. An overload's reason has no post: where it holds, there is no plan.
fn narrowed(reason: &Reason, ranges: &mut [Range]) -> Result<bool, NoPlan> {
    let post = reason.post().ok_or(NoPlan)?;
    let range = &mut ranges[post.variable()];
    let before = *range;
    let left = match post.comparison() {
        Comparison::LessEqual => range.lower(post.value()),
        _ => range.raise(post.value()),
    };
    if left { Ok(*range != before) } else { Err(NoPlan) }
}

/// Keeps reasons of a pass, each of which passes its check. A kept reason holds for whatever ranges meet its atoms, so it is tried at each later node
/// of the search before a pass is made.
fn keep<'w>(kept: &mut Vec<Reason<'static>>, durations: &[i32], reasons: impl Iterator<Item = Reason<'w>>) {
    for reason in reasons {
        assert_eq!(reason.check(durations), Ok(Verdict::Passed));
        kept.push(reason.into_owned());
    }
}

/// The search: depth first, on which register goes next.
struct Planner {
    propagator: Propagator,
    words: Words,
    /// Why the registers cannot fit into the ranges of the file, where that is seen before any search.
    conflict: Option<Conflict>,
    kept: Vec<Reason<'static>>,
    /// How many of the kept ones come from the first node.
    root: usize,
    nodes: usize,
    limit: usize,
}

const WITHIN: &str = "as many ranges as tasks, within the limits, with bars that fit";

impl Planner {
    fn new(durations: &[i32], limit: usize) -> Result<Planner, Refused> {
        let propagator = Propagator::new(durations)?;
        let words = propagator.words();
        Ok(Planner { propagator, words, conflict: None, kept: Vec::new(), root: 0, nodes: 0, limit })
    }

    /// Narrows the ranges by what was kept, and says whether one changed.
    fn recall(&self, ranges: &mut [Range]) -> Result<bool, NoPlan> {
        let mut changed = false;
        for reason in &self.kept {
            if reason.holds(ranges) {
                changed |= narrowed(reason, ranges)?;
            }
        }
        Ok(changed)
    }

    /// Raises the earliest starts by one run, keeps its reasons, and says whether one rose.
    fn raise(&mut self, ranges: &mut [Range]) -> Result<bool, NoPlan> {
        let outcome = self.propagator.run(ranges, &mut self.words).expect(WITHIN);
        keep(&mut self.kept, self.propagator.durations(), outcome.reasons());
        match outcome {
            Outcome::Done { posts, .. } => Ok(posts.len() > 0),
            // The last post's reason is kept, and with it the conflict: wherever it holds, the post passes the latest start.
            Outcome::Emptied { .. } | Outcome::Overload { .. } => Err(NoPlan),
        }
    }

    /// Lowers the latest starts by one mirrored pass, keeps its reasons, and says whether one fell.
    fn lower(&mut self, ranges: &mut [Range]) -> Result<bool, NoPlan> {
        let outcome = self.propagator.run_mirrored(ranges, &mut self.words).expect(WITHIN);
        keep(&mut self.kept, self.propagator.durations(), outcome.reasons());
        match outcome {
            Mirrored::Done { posts } => Ok(posts.len() > 0),
            Mirrored::Emptied { .. } | Mirrored::Overload { .. } => Err(NoPlan),
        }
    }

    /// Narrows the ranges from both sides until nothing changes. No plan is lost.
    fn narrow(&mut self, ranges: &mut [Range]) -> Result<(), NoPlan> {
        loop {
            while self.recall(ranges)? {}
            let raised = self.raise(ranges)?;
            let lowered = self.lower(ranges)?;
            if !raised && !lowered {
                return Ok(());
            }
        }
    }

    /// The starts of a plan in which the tasks that are left come behind the others, which have one start each.
    fn search(&mut self, mut ranges: Vec<Range>, left: &[usize]) -> Result<Option<Vec<i32>>, TooLarge> {
        if self.nodes == self.limit {
            return Err(TooLarge);
        }
        self.nodes += 1;
        let narrowed = self.narrow(&mut ranges);
        if self.nodes == 1 {
            self.root = self.kept.len();
        }
        if narrowed.is_err() {
            return Ok(None);
        }
        if left.is_empty() {
            return Ok(Some(ranges.iter().map(|range| range.earliest).collect()));
        }
        // The one that can start first is tried first.
        let mut order = left.to_vec();
        order.sort_by_key(|task| ranges[*task].earliest);
        for next in order {
            // It goes next: at its earliest start, since a later one gives the others no more room, and the others go behind it.
            let end = ranges[next].earliest + self.propagator.durations()[next];
            let others: Vec<usize> = left.iter().copied().filter(|task| *task != next).collect();
            let mut behind = ranges.clone();
            behind[next].latest = behind[next].earliest;
            if others.iter().all(|other| behind[*other].raise(end)) {
                if let Some(plan) = self.search(behind, &others)? {
                    return Ok(Some(plan));
                }
            }
        }
        Ok(None)
    }
}

/// The planner behind its search, and the starts of a plan: none where there is no plan.
type Planned = (Planner, Result<Option<Vec<i32>>, TooLarge>);

fn plan(registers: &[Register], limit: usize) -> Result<Planned, Refused> {
    let durations: Vec<i32> = registers.iter().map(|register| register.duration).collect();
    let ranges: Vec<Range> = registers.iter().map(|register| register.range).collect();
    let mut planner = Planner::new(&durations, limit)?;
    // This says too whether the ranges are within the limits and their bars fit; those of the search lie within these and have permitted ends.
    planner.conflict = planner.propagator.conflict(&ranges)?;
    let all: Vec<usize> = (0..registers.len()).collect();
    let found = planner.search(ranges, &all);
    Ok((planner, found))
}

/// The registers of a file, or the line that is none.
fn registers(text: &str) -> Result<Vec<Register>, String> {
    let lines = text.lines().enumerate().filter(|(_, line)| !line.trim().is_empty());
    lines
        .map(|(k, line)| {
            let wrong = || format!("line {} is no register: {line}", k + 1);
            let words: Vec<&str> = line.split_whitespace().collect();
            let ([name, earliest, latest, duration] | [name, earliest, latest, duration, "not", ..]) = words[..] else {
                return Err(wrong());
            };
            let number = |word: &str| word.parse::<i32>().map_err(|_| wrong());
            let barred = words.iter().skip(5).map(|word| number(word)).collect::<Result<Vec<i32>, String>>()?;
            let range = Range::new(number(earliest)?, number(latest)?).barred(&barred);
            Ok(Register { name: name.to_string(), range, duration: number(duration)? })
        })
        .collect()
}

/// A refusal in words, with the name of the register that it is about.
fn unfit(refused: Refused, registers: &[Register]) -> String {
    match refused.task() {
        Some(task) => format!("{}: {refused}", registers[task].name),
        None => refused.to_string(),
    }
}

/// A reason in words: what follows, with the range that the register was given, and the atoms by name.
fn told(reason: &Reason, registers: &[Register]) -> String {
    let register = |atom: &reedgrit::Atom| &registers[atom.variable()];
    let what = match reason.post() {
        Some(post) => format!("{} ({}) {} {}", register(&post).name, register(&post).range, post.comparison(), post.value()),
        None => "too much work".to_string(),
    };
    let why: Vec<String> =
        reason.atoms().iter().map(|atom| format!("{} {} {}", register(atom).name, atom.comparison(), atom.value())).collect();
    format!("{what}, since {}", why.join(", "))
}

/// The names of registers, as in "a, b and c".
fn names(tasks: &[usize], registers: &[Register]) -> String {
    let names: Vec<&str> = tasks.iter().map(|task| &registers[*task].name[..]).collect();
    match &names[..] {
        [first @ .., last] if !first.is_empty() => format!("{} and {last}", first.join(", ")),
        _ => names.concat(),
    }
}

/// The conflict in sentences, and a line for each register of its set.
fn shown(conflict: &Conflict, registers: &[Register]) -> String {
    let (Conflict::Overload { set, lct, excess } | Conflict::Late { set, lct, excess, .. }) = conflict;
    let (count, est, p) = (set.tasks().len(), set.est(), set.p());
    let mut lines = match conflict {
        Conflict::Overload { .. } => {
            vec![format!("These {count} registers have {} units from {est} to {lct}, and take {p}: {excess} too many.", p - excess)]
        }
        Conflict::Late { task, latest_start, bound, before, .. } => {
            let name = &registers[*task].name;
            let others: Vec<usize> = set.tasks().iter().copied().filter(|other| other != task).collect();
            vec![
                format!(
                    "{name} comes after {}: these {count} registers take {p} from {est} on, {excess} too many to end by {lct}.",
                    names(&others, registers)
                ),
                format!(
                    "{name} starts at {bound} or later, after the {} units from {} on of {}, and may not start after {latest_start}.",
                    before.p(),
                    before.est(),
                    names(before.tasks(), registers)
                ),
            ]
        }
    };
    lines.extend(set.tasks().iter().map(|task| {
        let Register { name, range, duration } = &registers[*task];
        format!("{name} from {} until {} takes {duration}", range.earliest, range.latest + duration)
    }));
    lines.join("\n")
}

/// That there is no plan, and why: the conflict of the ranges, or else the first node's reasons. Where that node is the only one, they show it.
fn no_plan(registers: &[Register], planner: &Planner) -> String {
    if let Some(conflict) = &planner.conflict {
        return format!("there is no plan:\n{}", shown(conflict, registers));
    }
    let mut lines = vec![match planner.nodes {
        1 => "there is no plan, for these reasons:".to_string(),
        nodes => format!("there is no plan: a search of {nodes} nodes found none, from what these reasons left:"),
    }];
    lines.extend(planner.kept[..planner.root].iter().map(|reason| told(reason, registers)));
    lines.join("\n")
}

/// A plan, a line for each register by start.
fn lines(registers: &[Register], starts: &[i32]) -> String {
    let mut rows: Vec<_> = registers.iter().zip(starts).collect();
    rows.sort_by_key(|(_, start)| **start);
    let line = |(register, start): &(&Register, &i32)| format!("{} from {start} to {}", register.name, *start + register.duration);
    rows.iter().map(line).collect::<Vec<_>>().join("\n")
}

/// Round moments between the two, eleven at most.
fn ticks(first: i32, last: i32) -> impl Iterator<Item = i32> {
    let steps = (0..9).flat_map(|power| [1, 2, 5].map(|times| times * 10_i32.pow(power)));
    let step = steps.into_iter().find(|step| (last - first) / step <= 10).unwrap_or(1_000_000_000);
    let from = -(-first).div_euclid(step) * step;
    (from..=last).step_by(step as usize)
}

/// A row of a picture: its name, a stretch in gray, boxes over it, and red marks below it, a unit wide.
struct Row {
    name: String,
    stretch: (i32, i32),
    boxes: Vec<(i32, i32, &'static str)>,
    marks: Vec<i32>,
}

const DARK: &str = "#48606f";
const PALE: &str = "#6f8797";
const RED: &str = "#b5541c";

/// The rows as a picture, over the time.
fn drawn(rows: &[Row]) -> String {
    let ends = || rows.iter().flat_map(|row| row.boxes.iter().map(|(from, to, _)| (*from, *to)).chain([row.stretch]));
    let first = ends().map(|(from, _)| from).min().unwrap_or(0);
    let last = ends().map(|(_, to)| to).max().unwrap_or(1);
    let x = |moment: i32| 120.0 + 640.0 * f64::from(moment - first) / f64::from((last - first).max(1));
    let bottom = 26 * rows.len() + 10;
    let mut svg = format!(
        "<svg xmlns=\"http://www.w3.org/2000/svg\" viewBox=\"0 0 790 {}\" font-family=\"sans-serif\" font-size=\"13\">\n",
        bottom + 24
    );
    for tick in ticks(first, last) {
        let x = x(tick);
        writeln!(svg, "<line x1=\"{x:.1}\" y1=\"4\" x2=\"{x:.1}\" y2=\"{bottom}\" stroke=\"#c9d1d8\"/>").expect("a string takes it");
        writeln!(svg, "<text x=\"{x:.1}\" y=\"{}\" text-anchor=\"middle\">{tick}</text>", bottom + 16).expect("a string takes it");
    }
    for (at, row) in rows.iter().enumerate() {
        let y = 26 * at + 8;
        let mut boxed = |from: i32, to: i32, y: usize, height: usize, colour: &str| {
            writeln!(svg, "<rect x=\"{:.1}\" y=\"{y}\" width=\"{:.1}\" height=\"{height}\" fill=\"{colour}\"/>", x(from), x(to) - x(from))
                .expect("a string takes it");
        };
        boxed(row.stretch.0, row.stretch.1, y, 18, "#dde3e8");
        row.boxes.iter().for_each(|(from, to, colour)| boxed(*from, *to, y, 18, colour));
        row.marks.iter().for_each(|mark| boxed(*mark, mark + 1, y + 18, 4, RED));
        let name = row.name.replace('&', "&amp;").replace('<', "&lt;");
        writeln!(svg, "<text x=\"8\" y=\"{}\">{name}</text>", y + 14).expect("a string takes it");
    }
    svg + "</svg>\n"
}

/// A register's row: its duration from `start` on, over its range.
fn row(register: &Register, start: i32) -> Row {
    let Range { earliest, latest, .. } = register.range;
    let marks = register.range.bars().iter().copied().filter(|bar| earliest < *bar && *bar < latest).collect();
    let boxes = vec![(start, start + register.duration, DARK)];
    Row { name: register.name.clone(), stretch: (earliest, latest + register.duration), boxes, marks }
}

/// The work of a set, one register behind the other from its earliest start on, over the time until `end`. What is past the end is red.
fn sum_row(name: &str, work: &Work, end: i32, registers: &[Register]) -> Row {
    let mut at = work.est();
    let mut boxes = Vec::new();
    for (k, task) in work.tasks().iter().enumerate() {
        boxes.push((at, at + registers[*task].duration, if k % 2 == 0 { DARK } else { PALE }));
        at += registers[*task].duration;
    }
    boxes.push((work.est().max(end), at, RED));
    Row { name: name.to_string(), stretch: (work.est().min(end), end), boxes, marks: Vec::new() }
}

/// The plan: a row for each register.
fn plan_rows(registers: &[Register], starts: &[i32]) -> Vec<Row> {
    registers.iter().zip(starts).map(|(register, start)| row(register, *start)).collect()
}

/// The conflict: a row for each register of its set, and the sums of its page.
fn conflict_rows(conflict: &Conflict, registers: &[Register]) -> Vec<Row> {
    let (Conflict::Overload { set, lct, .. } | Conflict::Late { set, lct, .. }) = conflict;
    let mut rows: Vec<Row> = set.tasks().iter().map(|task| row(&registers[*task], registers[*task].range.earliest)).collect();
    rows.push(sum_row("together", set, *lct, registers));
    if let Conflict::Late { latest_start, before, .. } = conflict {
        rows.push(sum_row("before it", before, *latest_start, registers));
    }
    rows
}

/// Plans the registers of a file; else the exit status and why.
fn planned(file: &str, picture: Option<&String>) -> Result<(), (u8, String)> {
    let text = std::fs::read_to_string(file).map_err(|error| (3, format!("{file}: {error}")))?;
    let registers = registers(&text).map_err(|wrong| (2, wrong))?;
    let (planner, found) = plan(&registers, NODES).map_err(|refused| (2, unfit(refused, &registers)))?;
    eprintln!("{} nodes, {} reasons kept and checked", planner.nodes, planner.kept.len());
    let starts = match found {
        Err(TooLarge) => return Err((3, format!("no plan in the first {NODES} nodes; there may be one"))),
        Ok(None) => {
            println!("{}", no_plan(&registers, &planner));
            if let Some(conflict) = &planner.conflict {
                draw(picture, &conflict_rows(conflict, &registers))?;
            }
            return Err((1, String::new()));
        }
        Ok(Some(starts)) => starts,
    };
    println!("{}", lines(&registers, &starts));
    draw(picture, &plan_rows(&registers, &starts))
}

/// Writes the picture of the rows, where one is wanted; else the exit status and why.
fn draw(picture: Option<&String>, rows: &[Row]) -> Result<(), (u8, String)> {
    let Some(picture) = picture else { return Ok(()) };
    std::fs::write(picture, drawn(rows)).map_err(|error| (3, format!("{picture}: {error}")))
}

fn main() -> ExitCode {
    let words: Vec<String> = std::env::args().skip(1).collect();
    let ended = match &words[..] {
        [file] => planned(file, None),
        [file, picture] => planned(file, Some(picture)),
        _ => Err((3, "usage: planner FILE [SVG]".to_string())),
    };
    let Err((status, why)) = ended else { return ExitCode::SUCCESS };
    if !why.is_empty() {
        eprintln!("planner: {why}");
    }
    ExitCode::from(status)
}

#[cfg(test)]
mod tests {
    use super::*;

    /// Whether some order of the registers is a plan, each at its earliest permitted start behind those before it.
    fn some_order(registers: &[Register], left: &mut Vec<usize>, end: i32) -> bool {
        if left.is_empty() {
            return true;
        }
        (0..left.len()).any(|at| {
            let next = left.remove(at);
            let range = registers[next].range;
            let start = (range.earliest.max(end)..=range.latest).find(|start| !range.bars().contains(start));
            let fits = start.is_some_and(|start| some_order(registers, left, start + registers[next].duration));
            left.insert(at, next);
            fits
        })
    }

    // On random registers, every other time with barred starts, the planner finds a plan exactly where some order is one, and what it finds is a plan.
    #[test]
    fn as_brute_force_says() {
        let mut seed = 20_261_116_u64;
        let mut below = |n: u64| {
            seed ^= seed << 13;
            seed ^= seed >> 7;
            seed ^= seed << 17;
            (seed % n) as i32
        };
        let (mut plans, mut by_bars) = (0, 0);
        for round in 0..2_000 {
            let count = 2 + below(6);
            let registers: Vec<Register> = (0..count)
                .map(|k| {
                    let earliest = below(12) - 4;
                    let range = Range::new(earliest, earliest + below(10));
                    let barred: Vec<i32> = (earliest - 1..range.latest + 3)
                        .filter(|start| *start != earliest && *start != range.latest && round % 2 == 1 && below(6) > 0)
                        .collect();
                    Register { name: k.to_string(), range: range.barred(&barred), duration: 1 + below(5) }
                })
                .collect();
            let found = plan(&registers, NODES).unwrap().1.unwrap();
            let mut all = (0..registers.len()).collect();
            assert_eq!(found.is_some(), some_order(&registers, &mut all, i32::MIN / 2), "{registers:?}");
            let Some(starts) = found else {
                let free: Vec<Register> = registers.iter().map(|one| Register { range: one.range.barred(&[]), ..one.clone() }).collect();
                by_bars += usize::from(some_order(&free, &mut all, i32::MIN / 2));
                continue;
            };
            plans += 1;
            for (j, first) in registers.iter().enumerate() {
                assert!(first.range.permits(starts[j]));
                for (k, second) in registers.iter().enumerate().skip(j + 1) {
                    assert!(starts[j] + first.duration <= starts[k] || starts[k] + second.duration <= starts[j]);
                }
            }
        }
        assert!(plans > 500 && plans < 1_500 && by_bars > 50, "{plans} of 2,000 have a plan, and {by_bars} would without bars");
    }

    // A register with bars has them marked in the picture, and those outside its range not.
    #[test]
    fn bars_are_drawn() {
        let registers = registers("Maria 0 8 2 not -1 3 4 9").unwrap();
        let svg = drawn(&plan_rows(&registers, &[5]));
        assert_eq!(svg.matches(RED).count(), 2);
        // the axis goes from 0 to 10
        assert_eq!(svg.matches("text-anchor").count(), 11);
        assert_eq!(ticks(-7, 33).collect::<Vec<_>>(), [-5, 0, 5, 10, 15, 20, 25, 30]);
        assert!(ticks(-400_000_000, 800_000_000).count() <= 11);
    }

    #[test]
    fn lines_that_are_none() {
        assert!(registers("Maria 0 4").is_err() && registers("Maria 0 x 4").is_err());
        assert_eq!(registers("Maria 0 4 2\n\nJohannes -3 9 5\n").unwrap().len(), 2);
        assert!(registers("Maria 0 4 2 1").is_err() && registers("Maria 0 4 2 not x").is_err() && registers("Maria 0 4 not 1").is_err());
        let barred = registers("Maria 0 4 2 not 1 3\nJohannes -3 9 5 not\n").unwrap();
        assert_eq!((barred[0].range.bars(), barred[1].range), (&[1, 3][..], Range::new(-3, 9)));
    }

    // What is refused is told in words, with the register's name.
    #[test]
    fn refusals_have_names() {
        for (text, said) in [
            ("Maria 0 4 2\nJohannes -3 9 5 not 4 2", "Johannes: refused 13: barred starts"),
            ("Maria 0 4 2 not 4", "Maria: refused 13: barred starts"),
            ("Maria 0 4 0", "Maria: refused 2: a duration below 1"),
            ("Maria 0 4 2\nJohannes 5 4 1", "Johannes: refused 4: "),
            ("", "refused 1: no tasks"),
        ] {
            let registers = registers(text).unwrap();
            let refused = plan(&registers, NODES).map(drop).unwrap_err();
            assert!(unfit(refused, &registers).starts_with(said), "{text}");
        }
    }

    /// What is said where the registers of the text have no plan, and the planner.
    fn said(text: &str) -> (String, Planner) {
        let registers = registers(text).unwrap();
        let (planner, found) = plan(&registers, NODES).unwrap();
        assert!(matches!(found, Ok(None)));
        (no_plan(&registers, &planner), planner)
    }

    // A conflict is told in the registers' own numbers, and drawn with its sums.
    #[test]
    fn why_they_cannot_fit() {
        let text = "Anna 0 7 4\nMaria 1 6 5\nPaul 9 40 3\nJohannes 0 6 4";
        let (why, planner) = said(text);
        assert_eq!(
            why,
            "there is no plan:\nThese 3 registers have 11 units from 0 to 11, and take 13: 2 too many.\n\
             Anna from 0 until 11 takes 4\nMaria from 1 until 11 takes 5\nJohannes from 0 until 10 takes 4"
        );
        let rows = conflict_rows(&planner.conflict.unwrap(), &registers(text).unwrap());
        assert_eq!(rows[3].stretch, (0, 11));
        assert_eq!(rows[3].boxes, [(0, 4, DARK), (4, 9, PALE), (9, 13, DARK), (11, 13, RED)]);
        assert_eq!(drawn(&rows).matches("<rect").count(), 4 + 3 + 4);

        let text = "Maria 0 5 3\nJohannes 1 1 5";
        let (why, planner) = said(text);
        assert_eq!(
            why,
            "there is no plan:\nMaria comes after Johannes: these 2 registers take 8 from 0 on, 2 too many to end by 6.\n\
             Maria starts at 6 or later, after the 5 units from 1 on of Johannes, and may not start after 5.\n\
             Maria from 0 until 8 takes 3\nJohannes from 1 until 6 takes 5"
        );
        let rows = conflict_rows(&planner.conflict.unwrap(), &registers(text).unwrap());
        assert_eq!((rows.len(), rows[3].stretch, &rows[3].boxes[..]), (4, (1, 5), &[(1, 6, DARK), (5, 6, RED)][..]));
    }

    // Where no conflict is seen in the ranges but by the passes at the first node, their reasons are told; else the search is named too.
    #[test]
    fn why_there_is_no_plan() {
        let (why, planner) = said("Anna 1 1 1\nMaria 1 3 1\nPaul 0 2 2");
        assert!(planner.nodes == 1 && planner.conflict.is_none());
        assert!(why.starts_with("there is no plan, for these reasons:\n") && why.contains("\ntoo much work, since "), "{why}");
        let (planner, found) = plan(&searched(), NODES).unwrap();
        assert!(matches!(found, Ok(None)) && planner.nodes > 1);
        assert!(no_plan(&searched(), &planner).starts_with(&format!("there is no plan: a search of {} nodes found none", planner.nodes)));
    }

    /// Three registers that may start at 0 or at 6 only: there is no plan, and only a search shows it.
    fn searched() -> Vec<Register> {
        registers("a 0 6 2 not 1 2 3 4 5\nb 0 6 3 not 1 2 3 4 5\nc 0 6 2 not 1 2 3 4 5").unwrap()
    }

    // The search ends at its limit.
    #[test]
    fn the_limit_of_nodes() {
        let (planner, found) = plan(&searched(), 1).unwrap();
        assert!(matches!(found, Err(TooLarge)) && planner.nodes == 1);
    }
}
