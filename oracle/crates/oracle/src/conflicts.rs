//! The conflict in the tasks' own numbers: found by the Rust's own sets, and judged over all sets.
use crate::api::*;
use crate::cli::{Session, join, numbers};
use crate::r#gen::pairs;
use crate::judge::{Task, schedule_exists, sets, verdict, whole};

/// A set of tasks by number, with its least earliest start and its sum of durations.
#[derive(Debug, Clone, PartialEq)]
pub struct Chosen {
    pub est: i64,
    pub p: i64,
    pub tasks: Vec<usize>,
}

impl Chosen {
    fn of(tasks: &[Task], mut set: Vec<usize>) -> Chosen {
        set.sort();
        let est = set.iter().map(|k| tasks[*k].e).min().unwrap_or(i64::MAX);
        Chosen { est, p: set.iter().map(|k| tasks[*k].p).sum(), tasks: set }
    }
    fn lct(&self, tasks: &[Task], without: Option<usize>) -> i64 {
        self.tasks.iter().filter(|k| Some(**k) != without).map(|k| tasks[*k].l + tasks[*k].p).max().unwrap_or(i64::MIN)
    }
}

#[derive(Debug, Clone, PartialEq)]
pub enum Conflict {
    Nothing,
    /// A set whose est + p is above its lct, by the excess.
    Overload { set: Chosen, lct: i64, excess: i64 },
    /// A task whose bound is above its latest start. Its set's est + p is above the lct of the others, by the excess, so that it comes after them; those of
    /// `ends` end at the bound.
    Late { task: usize, latest: i64, bound: i64, set: Chosen, lct: i64, excess: i64, ends: Chosen },
}

/// The longest suffix of a set, by earliest start and then by number, that completes at the moment.
fn suffix(tasks: &[Task], set: &[usize], moment: i64) -> Option<Chosen> {
    let mut by_start = set.to_vec();
    by_start.sort_by_key(|k| (tasks[*k].e, *k));
    (0..by_start.len()).map(|from| Chosen::of(tasks, by_start[from..].to_vec())).find(|part| part.est + part.p == moment)
}

/// The ect of a set, by its suffixes.
fn ect(tasks: &[Task], set: &[usize]) -> i64 {
    set.iter().map(|a| tasks[*a].e + set.iter().filter(|k| tasks[**k].e >= tasks[*a].e).map(|k| tasks[*k].p).sum::<i64>()).max().unwrap_or(i64::MIN)
}

/// The tasks that the Rust's theta tree has read at its first overload; otherwise the last post of a run that empties a range.
pub fn conflict(tasks: &[Task]) -> Option<Conflict> {
    let durations: Vec<i32> = tasks.iter().map(|t| t.p as i32).collect();
    if let Some(read) = quick_overload(&durations, &pairs(tasks)) {
        let mut by_completion: Vec<usize> = (0..tasks.len()).collect();
        by_completion.sort_by_key(|k| (tasks[*k].l + tasks[*k].p, *k));
        let set = suffix(tasks, &by_completion[..read], ect(tasks, &by_completion[..read]))?;
        let lct = set.lct(tasks, None);
        return Some(Conflict::Overload { excess: set.est + set.p - lct, set, lct });
    }
    let run = Machine::create(&durations).run(ranges(&pairs(tasks), &[]));
    match run.end {
        End::Done => Some(Conflict::Nothing),
        End::Emptied => {
            let (task, bound, reason) = run.posts.last()?;
            let mut others: Vec<usize> = reason.iter().map(|a| a.variable as usize).filter(|k| k != task).collect();
            others.dedup();
            let ends = suffix(tasks, &others, i64::from(*bound))?;
            others.push(*task);
            let set = Chosen::of(tasks, others);
            let lct = set.lct(tasks, Some(*task));
            let excess = set.est + set.p - lct;
            Some(Conflict::Late { task: *task, latest: tasks[*task].l, bound: i64::from(*bound), set, lct, excess, ends })
        }
        _ => None,
    }
}

/// The lines of an answer.
pub fn show(conflict: &Conflict) -> String {
    match conflict {
        Conflict::Nothing => "nothing\n".into(),
        Conflict::Overload { set, lct, excess } => format!("overload {} {} {lct} {excess}\ntasks{}\n", set.est, set.p, join(&set.tasks)),
        Conflict::Late { task, latest, bound, set, lct, excess, ends } => format!(
            "late {task} {latest} {bound}\nafter {} {} {lct} {excess}\ntasks{}\nends {} {}\ntasks{}\n",
            set.est,
            set.p,
            join(&set.tasks),
            ends.est,
            ends.p,
            join(&ends.tasks)
        ),
    }
}

/// The page: a heading, a line of 42 columns for each task of the set, with a mark at those that end at the bound, and two sentences that add up.
pub fn page(tasks: &[Task], conflict: &Conflict) -> String {
    let line = |nr: &str, from: &str, until: &str, takes: &str, mark: &str| format!("{nr:>4} {from:>11} {until:>11} {takes:>11} {mark:>1}\n");
    let (set, marked, sentences) = match conflict {
        Conflict::Nothing => return "nothing\n".into(),
        Conflict::Overload { set, lct, excess } => {
            (set, None, format!("{} units from {} to {lct}, and they take {}\n{excess} too many\n", lct - set.est, set.est, set.p))
        }
        Conflict::Late { task, latest, bound, set, lct, ends, .. } => {
            let after = format!("{task} comes after the others: {} + {} = {} is past {lct}\n", set.est, set.p, set.est + set.p);
            (set, Some(ends), after + &format!("{task} starts after those marked *: {} + {} = {bound} is past {latest}\n", ends.est, ends.p))
        }
    };
    let mut out = line("NR", "FROM", "UNTIL", "TAKES", "");
    for k in &set.tasks {
        let mark = if marked.is_some_and(|ends| ends.tasks.contains(k)) { "*" } else { "" };
        let Task { e, l, p } = tasks[*k];
        out += &line(&k.to_string(), &e.to_string(), &(l + p).to_string(), &p.to_string(), mark);
    }
    out + &sentences
}

/// An answer's lines as a conflict; none where they are no such lines.
pub fn read(lines: &[&str]) -> Option<Conflict> {
    let words: Vec<Vec<&str>> = lines.iter().map(|line| line.split(' ').collect()).collect();
    let named = |at: usize, name: &str, count: usize| {
        let line = words.get(at).filter(|line| line[0] == name)?;
        numbers(&line[1..]).filter(|found| found.len() == count)
    };
    let tasks = |at: usize| {
        let line = words.get(at).filter(|line| line[0] == "tasks")?;
        numbers(&line[1..])?.into_iter().map(|k| usize::try_from(k).ok()).collect::<Option<Vec<usize>>>()
    };
    match (*words.first()?.first()?, lines.len()) {
        ("nothing", 1) => (lines[0] == "nothing").then_some(Conflict::Nothing),
        ("overload", 2) => {
            let n = named(0, "overload", 4)?;
            Some(Conflict::Overload { set: Chosen { est: n[0], p: n[1], tasks: tasks(1)? }, lct: n[2], excess: n[3] })
        }
        ("late", 5) => {
            let (n, after, ends) = (named(0, "late", 3)?, named(1, "after", 4)?, named(3, "ends", 2)?);
            Some(Conflict::Late {
                task: usize::try_from(n[0]).ok()?,
                latest: n[1],
                bound: n[2],
                set: Chosen { est: after[0], p: after[1], tasks: tasks(2)? },
                lct: after[2],
                excess: after[3],
                ends: Chosen { est: ends[0], p: ends[1], tasks: tasks(4)? },
            })
        }
        _ => None,
    }
}

/// What is wrong with an answer, by the definitions over all sets; the chosen sets are free. Nothing of the Rust is asked.
pub fn faults(tasks: &[Task], answer: &Conflict) -> Vec<&'static str> {
    let v = verdict(tasks);
    let ascending = |set: &Chosen| set.tasks.is_sorted_by(|a, b| a < b) && set.tasks.iter().all(|k| *k < tasks.len());
    let added_up = |set: &Chosen| !set.tasks.is_empty() && *set == Chosen::of(tasks, set.tasks.clone());
    let mut found = Vec::new();
    let mut expect = |ok: bool, what: &'static str| if !ok { found.push(what) };
    match answer {
        Conflict::Nothing => expect(!v.overload && !v.passes, "nothing exactly where no set overloads and no bound passes"),
        Conflict::Overload { set, lct, excess } => {
            expect(v.overload, "overload only where some set overloads");
            if !ascending(set) {
                return vec!["the tasks are numbers, least first"];
            }
            expect(added_up(set) && *lct == set.lct(tasks, None), "est, p and lct of the set");
            expect(set.est + set.p == lct + excess && *excess >= 1, "the excess");
        }
        Conflict::Late { task, latest, bound, set, lct, excess, ends } => {
            expect(!v.overload && v.passes, "late only where no set overloads and some bound passes");
            if !ascending(set) || !ascending(ends) || !set.tasks.contains(task) {
                return vec!["the tasks are numbers, least first, and the late one is among them"];
            }
            expect(tasks[*task].l == *latest && latest < bound, "the latest start, and the bound above it");
            expect(added_up(set) && *lct == set.lct(tasks, Some(*task)), "est and p of the set, and lct of the others");
            expect(set.est + set.p == lct + excess && *excess >= 1, "the excess, so that the task comes after the others");
            expect(added_up(ends) && ends.est + ends.p == *bound, "some of the others end at the bound");
            expect(ends.tasks.iter().all(|k| k != task && set.tasks.contains(k)), "those that end at the bound are among the others");
            let s = sets(tasks);
            expect(
                (1..1usize << tasks.len()).any(|x| x >> task & 1 == 0 && s.ect[x | 1 << task] > s.lct[x] && s.ect[x] == *bound),
                "the bound is an edge-finding bound of the task",
            );
        }
    }
    let durations: Vec<i64> = tasks.iter().map(|t| t.p).collect();
    expect(*answer == Conflict::Nothing || !schedule_exists(&durations, &whole(tasks, &[])), "where there is a conflict there is no schedule");
    found
}

/// Judges the answers to the `conflict` commands of a list, of up to ten tasks each: how often each kind came, and what is wrong.
pub fn judge(commands: &str, answers: &str) -> Result<String, String> {
    let mut session = Session::default();
    let mut told = std::collections::BTreeMap::<String, u64>::new();
    let mut wrong = String::new();
    let said: Vec<&str> = answers.lines().collect();
    let mut said = said.split(|line| *line == "end");
    for command in commands.lines().filter(|line| !line.trim().is_empty() && !line.starts_with('#')) {
        let answer = said.next().unwrap_or_default();
        let Some(list) = command.strip_prefix("conflict ") else {
            session.command(command);
            continue;
        };
        let tasks = session.tasks(list.split(';').next().unwrap_or_default()).unwrap_or_default();
        let kind = answer.first().and_then(|line| line.split(' ').next()).unwrap_or("no answer");
        *told.entry(kind.into()).or_default() += 1;
        if tasks.is_empty() || tasks.len() > 10 || kind == "refused" {
            *told.entry("not judged".into()).or_default() += 1;
            continue;
        }
        let found = read(answer).map_or(vec!["these lines are no answer"], |answer| faults(&tasks, &answer));
        wrong.extend(found.iter().map(|what| format!("FAULT {what}: {tasks:?} {answer:?}\n")));
    }
    if wrong.is_empty() { Ok(format!("{told:?}")) } else { Err(wrong) }
}
