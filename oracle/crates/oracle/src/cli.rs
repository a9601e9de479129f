//! The line protocol.
use pumpkin_checking::{IntExt, VariableState};

use crate::api::*;
use crate::judge::Task;

#[derive(Default)]
pub struct Session {
    machine: Option<Machine>,
    state: VariableState<Atom>,
}

pub fn numbers(words: &[&str]) -> Option<Vec<i64>> {
    words.iter().map(|w| w.parse().ok()).collect()
}
pub fn join<T: ToString>(v: &[T]) -> String {
    v.iter().map(|x| format!(" {}", x.to_string())).collect()
}
fn atoms(v: &[i64]) -> Option<Vec<Atom>> {
    if v.len() % 3 != 0 {
        return None;
    }
    v.chunks(3)
        .map(|a| ((0..=3).contains(&a[1])).then(|| atom(a[0], a[1], a[2])))
        .collect()
}

pub fn show_outcome(o: &Outcome, out: &mut String) {
    let mut first = 0;
    let why = |atoms: &[Atom], out: &mut String| {
        for a in atoms {
            out.push_str(&format!("why {} {} {}\n", a.variable, sign_of(a.comparison), a.value));
        }
    };
    for (task, bound, reason) in &o.posts {
        out.push_str(&format!("post {task} {bound} {first} {}\n", reason.len()));
        why(reason, out);
        first += reason.len();
    }
    match &o.end {
        End::Done => out.push_str("done\n"),
        End::Emptied => out.push_str("emptied\n"),
        End::Panic(m) => out.push_str(&format!("panic {m}\n")),
        End::Overload(reason) => {
            out.push_str(&format!("overload {first} {}\n", reason.len()));
            why(reason, out);
        }
    }
    out.push_str(&format!("starts{}\n", join(&o.starts)));
    out.push_str(&format!("first{}\n", join(&o.first)));
    out.push_str(&format!("second{}\n", join(&o.second)));
}

/// An atom on a task in mirrored time; an atom on another variable stays.
fn mirrored_atom(a: &Atom, durations: &[i32]) -> Atom {
    let Some(p) = durations.get(a.variable as usize) else { return *a };
    let kind = kind_of(a.comparison) as i64;
    atom(a.variable as i64, if kind < 2 { 1 - kind } else { kind }, (-a.value - p) as i64)
}

/// Mirrors a run's answer back into the caller's time.
pub fn mirrored_back(o: &Outcome, durations: &[i32]) -> Outcome {
    let turn = |reason: &Vec<Atom>| -> Vec<Atom> {
        reason
            .iter()
            .map(|a| {
                let p = durations[a.variable as usize];
                atom(a.variable as i64, 1 - kind_of(a.comparison) as i64, (-a.value - p) as i64)
            })
            .collect()
    };
    Outcome {
        posts: o.posts.iter().map(|(t, b, r)| (*t, -b - durations[*t], turn(r))).collect(),
        end: match &o.end {
            End::Overload(r) => End::Overload(turn(r)),
            other => other.clone(),
        },
        starts: o.starts.iter().zip(durations).map(|(s, p)| -s - p).collect(),
        ..o.clone()
    }
}
pub fn mirrored(pairs: &[(i32, i32)], holes: &[Vec<i32>], durations: &[i32]) -> (Vec<(i32, i32)>, Vec<Vec<i32>>) {
    let m = pairs.iter().zip(durations).map(|(r, p)| (-(r.1 + p), -(r.0 + p))).collect();
    let h = (0..pairs.len())
        .map(|k| holes.get(k).map_or(vec![], |h| h.iter().rev().map(|v| -(v + durations[k])).collect()))
        .collect();
    (m, h)
}

/// The row of docs/DIFFERENCES.md that a check's panic belongs to, and the port's answer there; "none" where no row has this text at this input, so that
/// the comparison shows it.
fn panic_row(state: &VariableState<Atom>, durations: &[i32], consequent: Option<Atom>, text: &str) -> (&'static str, &'static str) {
    let bounds = |v: u32| match (state.lower_bound(&v), state.upper_bound(&v)) {
        (IntExt::Int(lower), IntExt::Int(upper)) => Some((i64::from(lower), i64::from(upper))),
        _ => None,
    };
    let others = || (0..durations.len() as u32).filter(|&v| consequent.is_none_or(|c| c.variable != v)).filter_map(|v| Some((v, bounds(v)?)));
    let (row, says) = match consequent {
        Some(c) if c.variable as usize >= durations.len() || bounds(c.variable).is_none() => ("2", "propagating task"),
        Some(_) if others().next().is_none() => ("4", "negate with overflow"),
        None if others().next().is_none() => ("3", "subtract with overflow"),
        None => {
            let first = others().map(|(_, (lower, _))| lower).min().unwrap_or_default();
            let last = others().map(|(v, (_, upper))| upper + i64::from(durations[v as usize])).max().unwrap_or_default();
            (if last - first > i64::from(i32::MAX) { "11" } else { "none" }, "subtract with overflow")
        }
        Some(_) => ("none", ""),
    };
    let told = text.contains(says) || (row == "2" && text.contains("unwrap()"));
    match row {
        "2" if told => (row, "refused 8"),
        "3" | "4" | "11" if told => (row, "not-passed"),
        _ => ("none", "a panic of no row"),
    }
}

impl Session {
    /// The created tasks with these ranges: `e0 l0 e1 l1 ..`.
    pub fn tasks(&self, ranges: &str) -> Option<Vec<Task>> {
        let durations = &self.machine.as_ref()?.durations;
        let v = numbers(&ranges.split_whitespace().collect::<Vec<_>>())?;
        let task = |(r, p): (&[i64], &i32)| Task { e: r[0], l: r[1], p: i64::from(*p) };
        (v.len() == 2 * durations.len()).then(|| v.chunks(2).zip(durations).map(task).collect())
    }

    fn run_words(&mut self, line: &str, mirror: bool, fresh: bool, out: &mut String) -> Option<()> {
        let machine = self.machine.as_mut()?;
        let parts: Vec<Vec<&str>> = line.split(';').map(|p| p.split_whitespace().collect()).collect();
        let v = numbers(&parts[0][1..])?;
        let n = machine.durations.len();
        if v.len() != 2 * n {
            return None;
        }
        let mut pairs: Vec<(i32, i32)> = v.chunks(2).map(|r| (r[0] as i32, r[1] as i32)).collect();
        let mut holes = vec![Vec::new(); n];
        for part in &parts[1..] {
            let w = numbers(part)?;
            holes[*w.first()? as usize] = w[1..].iter().map(|x| *x as i32).collect();
        }
        let durations = machine.durations.clone();
        if mirror {
            (pairs, holes) = mirrored(&pairs, &holes, &durations);
        }
        let o = if fresh {
            Machine::create(&durations).run(ranges(&pairs, &holes))
        } else {
            machine.run(ranges(&pairs, &holes))
        };
        let o = if mirror { mirrored_back(&o, &durations) } else { o };
        show_outcome(&o, out);
        if !mirror {
            out.push_str(&format!("changes {}\n", o.changes));
        }
        Some(())
    }

    /// Requests (f), (h), (i), (j), (k): references of our own with the refusals of the papers.
    fn request(&mut self, line: &str, out: &mut String) -> Option<()> {
        use crate::requests::*;
        let d: Vec<i64> = self.machine.as_ref()?.durations.iter().map(|x| *x as i64).collect();
        let parts: Vec<Vec<&str>> = line.split(';').map(|p| p.split_whitespace().collect()).collect();
        let name = parts[0][0];
        let mut v = numbers(&parts[0][1..])?;
        let named = if name == "precede-why" || name == "precede-bound" { v.remove(0) } else { 0 };
        if v.len() != 2 * d.len() {
            out.push_str("refused 10\n");
            return Some(());
        }
        let tasks: Vec<crate::judge::Task> = v
            .chunks(2)
            .zip(&d)
            .map(|(r, p)| crate::judge::Task { e: r[0], l: r[1], p: *p })
            .collect();
        if name.starts_with("precede") {
            if name == "precede-bound" {
                match precedence_bound(&tasks, named as usize) {
                    Some(bound) => out.push_str(&format!("bound {bound}\n")),
                    None => out.push_str("none\n"),
                }
                return Some(());
            }
            if name == "precede-why" {
                let why = precedence_reason(&tasks, named as usize);
                out.push_str(&format!("count {}\n", why.len()));
                for (v, k, x) in why {
                    out.push_str(&format!("why {v} {} {x}\n", [">=", "<="][k as usize]));
                }
                return Some(());
            }
            let mut holes = vec![Vec::new(); d.len()];
            for part in &parts[1..] {
                let w = numbers(part)?;
                holes[*w.first()? as usize] = w[1..].iter().map(|x| *x as i32).collect();
            }
            match precedence_pass(&tasks, &holes) {
                Ok(starts) => out.push_str(&format!("starts{}\n", join(&starts))),
                Err(task) => out.push_str(&format!("passes {task}\n")),
            }
            return Some(());
        }
        let limit = crate::r#gen::limit();
        let f = match fixed(&tasks, limit) {
            Ok(f) => f,
            Err(k) => {
                out.push_str(&format!("refused {k}\n"));
                return Some(());
            }
        };
        let more = numbers(parts.get(1).map_or(&[][..], |p| p))?;
        match name {
            "page" => out.push_str(&page(&f)),
            "free" => {
                let (t, w) = (*more.first()?, *more.get(1)?);
                if w < 1 || w > 400_000_000 || t.abs() > 400_000_000 {
                    out.push_str("refused 18\n");
                } else {
                    out.push_str(&format!("start {}\n", free_start(&f, t, w)));
                }
            }
            "charges" => {
                if more.len() != d.len() || more.iter().any(|x| x.abs() > 400_000_000) {
                    out.push_str("refused 19\n");
                } else {
                    let c: Vec<i64> = (0..d.len()).map(|k| charge(f.start[k] + f.p[k] - more[k])).collect();
                    out.push_str(&format!("charges{}\ntotal {}\n", join(&c), c.iter().sum::<i64>()));
                }
            }
            _ => {
                let w = *more.first()?;
                if !(1..=400_000_000).contains(&w) {
                    out.push_str("refused 23\n");
                } else {
                    let (best, at) = busiest(&f, w);
                    out.push_str(&format!("covered {best} from {at}\n"));
                }
            }
        }
        Some(())
    }

    /// Applies one atom. 21 and the state kept at a contradiction are the port's, not the Rust's.
    fn apply(state: &VariableState<Atom>, a: &Atom) -> Result<VariableState<Atom>, String> {
        let mut next = state.clone();
        if !next.apply(a) {
            return Err(format!("contradiction {}", a.variable));
        }
        if next.holes(&a.variable).count() > 16 {
            return Err("refused 21".into());
        }
        Ok(next)
    }

    /// The premises and the negated consequent, one after the other.
    fn steps(premises: &[Atom], consequent: Option<Atom>) -> Result<VariableState<Atom>, String> {
        use pumpkin_checking::AtomicConstraint;
        let mut state = VariableState::default();
        for a in premises.iter().copied().chain(consequent.map(|c| c.negate())) {
            state = Self::apply(&state, &a)?;
        }
        Ok(state)
    }

    fn answer(&mut self, line: &str, out: &mut String) -> Option<()> {
        let words: Vec<&str> = line.split_whitespace().collect();
        match *words.first()? {
            "create" => {
                let d: Vec<i32> = numbers(&words[1..])?.iter().map(|x| *x as i32).collect();
                out.push_str(&format!("created {}\n", d.len()));
                self.machine = Some(Machine::create(&d));
            }
            "orders" => {
                let v: Vec<usize> = numbers(&words[1..])?.iter().map(|x| *x as usize).collect();
                let n = self.machine.as_ref()?.durations.len();
                if v.len() != 2 * n {
                    return None;
                }
                self.machine.as_mut()?.set_orders(&v[..n], &v[n..]);
                out.push_str("set\n");
            }
            "add" => {
                self.machine.as_mut()?.add(words.get(1)?.parse().ok()?);
                out.push_str("added\n");
            }
            "remove" => {
                let k: usize = words.get(1)?.parse().ok()?;
                if k >= self.machine.as_ref()?.durations.len() {
                    return None;
                }
                self.machine.as_mut()?.remove(k);
                out.push_str("removed\n");
            }
            "run" => self.run_words(line, false, false, out)?,
            "run-fresh" => self.run_words(line, false, true, out)?,
            "mirror" => self.run_words(line, true, true, out)?,
            "quick" => {
                let m = self.machine.as_ref()?;
                let v = numbers(&words[1..])?;
                if v.len() != 2 * m.durations.len() {
                    return None;
                }
                let pairs: Vec<(i32, i32)> = v.chunks(2).map(|r| (r[0] as i32, r[1] as i32)).collect();
                match quick_overload(&m.durations, &pairs) {
                    Some(read) => out.push_str(&format!("yes {read}\n")),
                    None => out.push_str("no\n"),
                }
            }
            "program" => {
                let text = line.strip_prefix("program").unwrap().replace("\\n", "\n");
                out.push_str(&program(&text));
            }
            "page" | "free" | "charges" | "busiest" | "precede" | "precede-why" | "precede-bound" => self.request(line, out)?,
            "conflict" | "conflict-page" => {
                let tasks = self.tasks(line.strip_prefix(words[0])?.split(';').next()?)?;
                let found = crate::conflicts::conflict(&tasks)?;
                out.push_str(&if words[0] == "conflict" { crate::conflicts::show(&found) } else { crate::conflicts::page(&tasks, &found) });
            }
            "check" | "check-mirrored" => {
                let parts: Vec<Vec<&str>> = line.split(';').map(|p| p.split_whitespace().collect()).collect();
                let d: Vec<i32> = numbers(&parts[0][1..])?.iter().map(|x| *x as i32).collect();
                let premises = atoms(&numbers(parts.get(1).map_or(&[][..], |p| p))?)?;
                let consequent = atoms(&numbers(parts.get(2).map_or(&[][..], |p| p))?)?;
                if consequent.len() > 1 {
                    return None;
                }
                let consequent = consequent.first().copied();
                if let Err(text) = Self::steps(&premises, consequent) {
                    if text.starts_with("refused") {
                        out.push_str(&format!("{text}\n"));
                        return Some(());
                    }
                }
                // The mirrored check is the Rust's check of the mirrored atoms: what is refused or contradicted is so in either time.
                let (premises, consequent) = if words[0] == "check" {
                    (premises, consequent)
                } else {
                    (premises.iter().map(|a| mirrored_atom(a, &d)).collect(), consequent.map(|a| mirrored_atom(&a, &d)))
                };
                out.push_str(&match check(&d, &premises, consequent) {
                    Checked::Passed => "passed\n".to_string(),
                    Checked::NotPassed => "not-passed\n".to_string(),
                    Checked::Contradiction(v) => format!("contradiction {v}\n"),
                    Checked::Panic(m) => {
                        // What the port answers where the Rust panics: each panic is held to its row of docs/DIFFERENCES.md, by its text and by the input.
                        let state = Self::steps(&premises, consequent).unwrap();
                        let (row, answer) = panic_row(&state, &d, consequent, &m);
                        format!("panic {row}: {m}\n{answer}\n")
                    }
                });
            }
            "state" => {
                self.state = VariableState::default();
                out.push_str("empty\n");
            }
            "apply" => {
                let a = *atoms(&numbers(&words[1..])?)?.first()?;
                match Self::apply(&self.state, &a) {
                    Ok(next) => {
                        self.state = next;
                        self.show(a.variable, out);
                    }
                    Err(text) => out.push_str(&format!("{text}\n")),
                }
            }
            "is-true" => {
                let a = *atoms(&numbers(&words[1..])?)?.first()?;
                out.push_str(&format!("{}\n", self.state.is_true(&a)));
            }
            "lower" | "upper" => {
                let v: u32 = words.get(1)?.parse().ok()?;
                let b: IntExt =
                    if words[0] == "lower" { self.state.lower_bound(&v) } else { self.state.upper_bound(&v) };
                out.push_str(&format!("{}\n", show_ext(b)));
            }
            "show" => self.show(words.get(1)?.parse().ok()?, out),
            "prepare" => {
                let parts: Vec<Vec<&str>> = line.split(';').map(|p| p.split_whitespace().collect()).collect();
                let premises = atoms(&numbers(&parts[0][1..])?)?;
                let consequent = atoms(&numbers(parts.get(1).map_or(&[][..], |p| p))?)?;
                let consequent = consequent.first().copied();
                let whole = VariableState::prepare_for_conflict_check(premises.iter().copied(), consequent);
                let failed = Self::steps(&premises, consequent).err();
                match failed {
                    Some(text) => {
                        if let Some(v) = text.strip_prefix("contradiction ") {
                            assert_eq!(whole.err().map(|x| x.to_string()).as_deref(), Some(v));
                        }
                        out.push_str(&format!("{text}\n"));
                    }
                    None => {
                        self.state = whole.expect("the steps met no contradiction");
                        let mut vs: Vec<u32> = self.state.domains().copied().collect();
                        vs.sort();
                        out.push_str("prepared\n");
                        for v in vs {
                            self.show(v, out);
                        }
                    }
                }
            }
            _ => return None,
        }
        Some(())
    }

    fn show(&self, v: u32, out: &mut String) {
        let mut holes: Vec<i32> = self.state.holes(&v).collect();
        holes.sort();
        out.push_str(&format!(
            "var {v} {} {}{}\n",
            show_ext(self.state.lower_bound(&v)),
            show_ext(self.state.upper_bound(&v)),
            join(&holes)
        ));
    }

    /// The answer to one command: its lines, then `end`.
    pub fn command(&mut self, line: &str) -> String {
        let mut out = String::new();
        if self.answer(line, &mut out).is_none() {
            out = "error\n".into();
        }
        out.push_str("end\n");
        out
    }
}

/// Instance A's program: count and triples in, posts, reasons and outcome out.
pub fn program(input: &str) -> String {
    // A number: an optional minus sign, then digits (leading zeros allowed, no plus sign).
    let words: Option<Vec<i64>> = input
        .split_ascii_whitespace()
        .map(|w| if w.starts_with('+') { None } else { w.parse::<i32>().ok().map(|v| v as i64) })
        .collect();
    let refused = |k: i32| format!("refused {k}\n");
    let Some(v) = words else { return refused(0) };
    if v.is_empty() || v[0] < 0 || v.len() as i64 != 1 + 3 * v[0] {
        return refused(0);
    }
    let n = v[0] as usize;
    if n == 0 || n > 48 {
        return refused(1);
    }
    let t: Vec<&[i64]> = v[1..].chunks(3).collect();
    let durations: Vec<i32> = t.iter().map(|t| t[2] as i32).collect();
    if t.iter().any(|t| t[2] < 1) {
        return refused(2);
    }
    if t.iter().map(|t| t[2]).sum::<i64>() > crate::r#gen::limit() {
        return refused(5);
    }
    if t.iter().any(|t| t[0].abs() > crate::r#gen::limit() || t[1].abs() > crate::r#gen::limit()) {
        return refused(3);
    }
    if t.iter().any(|t| t[0] > t[1]) {
        return refused(4);
    }
    let pairs: Vec<(i32, i32)> = t.iter().map(|t| (t[0] as i32, t[1] as i32)).collect();
    let o = Machine::create(&durations).run(ranges(&pairs, &[]));
    let mut out = String::new();
    let why = |atoms: &[Atom], out: &mut String| {
        for a in atoms {
            out.push_str(&format!("why {} {} {}\n", a.variable, sign_of(a.comparison), a.value));
        }
    };
    for (task, bound, reason) in &o.posts {
        out.push_str(&format!("post {task} {bound}\n"));
        why(reason, &mut out);
    }
    match &o.end {
        End::Done => out.push_str(&format!("done{}\n", join(&o.starts))),
        End::Emptied => out.push_str("emptied\n"),
        End::Overload(r) => {
            why(r, &mut out);
            out.push_str("overload\n");
        }
        End::Panic(m) => out.push_str(&format!("panic {m}\n")),
    }
    out
}
