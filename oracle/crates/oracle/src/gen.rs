//! Random instances and vectors, the same for the same seed.
use crate::api::*;
use crate::cli::{Session, mirrored, mirrored_back};
use crate::judge::Task;
use crate::rng::Rng;

/// The start limit and the duration total's limit.
pub fn limit() -> i64 {
    400_000_000
}
pub const VALUE: i64 = 900_000_000;

pub fn durations(rng: &mut Rng, n: usize, spread: i64) -> Vec<i64> {
    let top = match rng.to(0, 5) {
        0 => 1,
        1 => 2,
        2 => 4,
        3 => (limit() / n as i64).max(1),
        _ => (spread / 2).max(1),
    }
    .min((limit() / n as i64).max(1));
    (0..n).map(|_| rng.to(1, top)).collect()
}

/// Ranges for the given durations: tight ones, tied ones, ones around a schedule, wide ones; also
/// at both ends of the permitted numbers.
pub fn ranges_for(rng: &mut Rng, p: &[i64], spread: i64) -> Vec<Task> {
    let n = p.len();
    let total: i64 = p.iter().sum();
    let unit = (total / (n as i64 * 4)).max(1);
    let spread = if unit > spread { unit * spread.min(20) } else { spread };
    let base = match rng.to(0, 7) {
        0 => limit() - rng.to(0, spread),
        1 => -limit(),
        2 => limit() - total - rng.to(0, spread),
        3 => rng.to(-limit(), limit()),
        4 => -spread / 2,
        5 => -total,
        _ => 0,
    };
    let clamp = |v: i64| v.clamp(-limit(), limit());
    let mode = rng.to(0, 4);
    let mut out: Vec<Task> = Vec::new();
    match mode {
        0 => {
            let slack = [0, 1, 2, 3, spread, total][rng.to(0, 5) as usize];
            for d in p {
                let e = base + rng.to(0, spread);
                out.push(Task { e: clamp(e), l: clamp(e + rng.to(0, slack)), p: *d });
            }
        }
        1 => {
            let step = [1, 2, unit, total / 2 + 1][rng.to(0, 3) as usize];
            for d in p {
                let e = clamp(base + step * rng.to(0, 3));
                let l = clamp(base + step * rng.to(0, 3) + total - d + rng.to(-1, 1));
                out.push(Task { e: e.min(l), l, p: *d });
            }
        }
        2 | 3 => {
            // Around a schedule that exists.
            let mut order: Vec<usize> = (0..n).collect();
            for k in (1..n).rev() {
                order.swap(k, rng.to(0, k as i64) as usize);
            }
            let mut t = base;
            out = vec![Task { e: 0, l: 0, p: 1 }; n];
            let wide = [1, 2, unit, unit * 3, total][rng.to(0, 4) as usize];
            let gap = [0, 0, 1, unit][rng.to(0, 3) as usize];
            for k in order {
                t += rng.to(0, gap);
                let back = if rng.one_in(3) { 0 } else { rng.to(0, wide) };
                let on = if rng.one_in(3) { 0 } else { rng.to(0, wide) };
                out[k] = Task { e: clamp(t - back), l: clamp(t + on), p: p[k] };
                t += p[k];
            }
        }
        _ => {
            for d in p {
                let a = clamp(base + rng.to(0, total.max(spread)));
                let b = clamp(base + rng.to(0, total.max(spread)));
                out.push(Task { e: a.min(b), l: a.max(b), p: *d });
            }
        }
    }
    out
}

pub fn pairs(tasks: &[Task]) -> Vec<(i32, i32)> {
    tasks.iter().map(|t| (t.e as i32, t.l as i32)).collect()
}

/// Random atoms on few variables with few values, so that they meet.
pub fn random_atoms(rng: &mut Rng, variables: i64, count: i64, base: i64, width: i64) -> Vec<Atom> {
    (0..count)
        .map(|_| {
            let top = if rng.one_in(3) { 8 } else { 5 };
            let kind = [0, 0, 0, 1, 1, 1, 2, 3, 3][rng.to(0, top) as usize];
            let v = (base + rng.to(-width, width)).clamp(-VALUE, VALUE);
            atom(rng.to(0, variables - 1), kind, v)
        })
        .collect()
}

fn words(atoms: &[Atom]) -> String {
    atoms
        .iter()
        .map(|a| format!(" {} {} {}", a.variable, kind_of(a.comparison), a.value))
        .collect()
}

fn say(session: &mut Session, line: String) {
    print!("> {line}\n{}", session.command(&line));
}

pub fn holes_for(rng: &mut Rng, tasks: &[Task]) -> Vec<Vec<i32>> {
    tasks
        .iter()
        .map(|t| {
            let want = [0, 0, 1, 3, 16][rng.to(0, 4) as usize];
            let width = [3, 20, 40][rng.to(0, 2) as usize];
            let mut h: Vec<i32> = (0..want)
                .map(|_| {
                    let at = if rng.one_in(2) { t.e } else { t.e + (t.l - t.e) / 2 };
                    (at + rng.to(-2, width)) as i32
                })
                .filter(|v| *v as i64 != t.e && *v as i64 != t.l)
                .collect();
            h.sort();
            h.dedup();
            h
        })
        .collect()
}

/// Barred starts where a run, or a mirrored pass, comes to them: a stretch from each bound on, or back from it, now and then with a gap.
pub fn holes_met(rng: &mut Rng, tasks: &[Task], p: &[i64]) -> Vec<Vec<i32>> {
    let d: Vec<i32> = p.iter().map(|x| *x as i32).collect();
    let there = Machine::create(&d).run(ranges(&pairs(tasks), &[]));
    let (m, none) = mirrored(&pairs(tasks), &[], &d);
    let back = mirrored_back(&Machine::create(&d).run(ranges(&m, &none)), &d);
    let mut holes = vec![Vec::new(); tasks.len()];
    for (o, step) in [(&there, 1), (&back, -1)] {
        for (task, bound, _) in &o.posts {
            let long = [1, 1, 2, 5, 8][rng.to(0, 4) as usize];
            holes[*task].extend((0..long).map(|k| bound + step * k).filter(|_| !rng.one_in(8)));
        }
    }
    for (h, t) in holes.iter_mut().zip(tasks) {
        h.retain(|v| *v as i64 != t.e && *v as i64 != t.l);
        h.sort();
        h.dedup();
        h.truncate(16);
    }
    holes
}

/// Lowers the latest start of one task that a run posts, to just below its bound, where no set overloads then: the task is late. Says whether there is one.
pub fn made_late(tasks: &mut [Task]) -> bool {
    let d: Vec<i32> = tasks.iter().map(|t| t.p as i32).collect();
    for (task, bound, _) in Machine::create(&d).run(ranges(&pairs(tasks), &[])).posts {
        let before = tasks[task];
        tasks[task].l = before.l.min(i64::from(bound) - 1);
        if quick_overload(&d, &pairs(tasks)).is_none() {
            return true;
        }
        tasks[task] = before;
    }
    false
}

pub fn gen_runs(seed: u64, count: usize, nmax: i64, spread: i64, what: &str) {
    let mut rng = Rng(seed);
    let mut made = 0;
    while made < count {
        let n = rng.to(1, nmax) as usize;
        let p = durations(&mut rng, n, spread);
        let mut s = Session::default();
        say(&mut s, format!("create{}", p.iter().map(|d| format!(" {d}")).collect::<String>()));
        let series = if what == "runs" { rng.to(1, 4) } else { 1 };
        for _ in 0..series {
            let mut tasks = ranges_for(&mut rng, &p, spread);
            let mut more = if what == "late" { 50 } else { 0 };
            while more > 0 && !made_late(&mut tasks) {
                tasks = ranges_for(&mut rng, &p, spread);
                more -= 1;
            }
            let mut line: String = if what == "mirror" { "mirror" } else { "run" }.into();
            line.extend(tasks.iter().map(|t| format!(" {} {}", t.e, t.l)));
            if what == "barred" || what == "met" {
                let holes = if what == "met" { holes_met(&mut rng, &tasks, &p) } else { holes_for(&mut rng, &tasks) };
                for (k, h) in holes.iter().enumerate() {
                    if !h.is_empty() {
                        line.push_str(&format!(" ; {k}"));
                        line.extend(h.iter().map(|v| format!(" {v}")));
                    }
                }
            }
            say(&mut s, line);
            if what == "quick" {
                let line: String = tasks.iter().map(|t| format!(" {} {}", t.e, t.l)).collect();
                say(&mut s, format!("quick{line}"));
            }
            made += 1;
        }
    }
}

/// A check near a true inference: a run's reason, changed a little.
pub fn random_check(rng: &mut Rng, nmax: i64, spread: i64) -> (Vec<i32>, Vec<Atom>, Option<Atom>) {
    let n = rng.to(1, nmax) as usize;
    let p = durations(rng, n, spread);
    let d: Vec<i32> = p.iter().map(|x| *x as i32).collect();
    if rng.one_in(4) {
        let base = [0, -spread, 0, VALUE, -VALUE][rng.to(0, 4) as usize];
        let count = rng.to(0, 3 * n as i64 + 2);
        let premises = random_atoms(rng, n as i64 + 1, count, base, spread * 2);
        let consequent = if rng.one_in(2) { random_atoms(rng, n as i64, 1, base, spread * 2).pop() } else { None };
        return (d, premises, consequent);
    }
    let mut best: (Vec<Atom>, Option<Atom>) = (vec![], None);
    for _ in 0..8 {
        let tasks = ranges_for(rng, &p, spread);
        let o = Machine::create(&d).run(ranges(&pairs(&tasks), &[]));
        if !o.posts.is_empty() && rng.one_in(2) {
            let (t, b, r) = &o.posts[rng.to(0, o.posts.len() as i64 - 1) as usize];
            best = (r.clone(), Some(atom(*t as i64, 0, *b as i64)));
            break;
        }
        if let End::Overload(r) = &o.end {
            best = (r.clone(), None);
            break;
        }
        // All bounds of all tasks.
        best.0 = tasks
            .iter()
            .enumerate()
            .flat_map(|(k, t)| [atom(k as i64, 0, t.e), atom(k as i64, 1, t.l)])
            .collect();
        best.1 = if rng.one_in(3) {
            None
        } else {
            let k = rng.to(0, n as i64 - 1);
            Some(atom(k, [0, 0, 0, 1, 2, 3][rng.to(0, 5) as usize], tasks[k as usize].e + rng.to(0, spread)))
        };
    }
    let (mut r, mut c) = best;
    for _ in 0..rng.to(0, 3) {
        match rng.to(0, 7) {
            0 if !r.is_empty() => {
                let k = rng.to(0, r.len() as i64 - 1) as usize;
                r.remove(k);
            }
            1 | 2 if !r.is_empty() => {
                let k = rng.to(0, r.len() as i64 - 1) as usize;
                r[k].value = (r[k].value as i64 + rng.to(-2, 2)).clamp(-VALUE, VALUE) as i32;
            }
            3 => {
                if let Some(c) = c.as_mut() {
                    c.value = (c.value as i64 + rng.to(-2, 2)).clamp(-VALUE, VALUE) as i32;
                }
            }
            4 if !r.is_empty() => {
                let k = rng.to(0, r.len() as i64 - 1) as usize;
                let (v, x) = (r[k].variable as i64, r[k].value as i64);
                r.push(atom(v, 3, (x + rng.to(-1, 1)).clamp(-VALUE, VALUE)));
            }
            5 if !r.is_empty() => {
                let k = rng.to(0, r.len() as i64 - 1) as usize;
                let x = r[k].value as i64;
                r.insert(k, atom(rng.to(0, n as i64 + 1), rng.to(0, 3), x));
            }
            6 if r.len() > 1 => {
                let k = rng.to(1, r.len() as i64 - 1) as usize;
                r.swap(0, k);
            }
            _ => {
                if let Some(c) = c.as_mut() {
                    if rng.one_in(4) {
                        *c = atom(c.variable as i64, rng.to(0, 3), c.value as i64);
                    }
                }
            }
        }
    }
    (d, r, c)
}

pub fn gen_checks(seed: u64, count: usize, nmax: i64, spread: i64) {
    let mut rng = Rng(seed);
    let mut s = Session::default();
    for _ in 0..count {
        let (d, r, c) = random_check(&mut rng, nmax, spread);
        let mut line = String::from("check");
        line.extend(d.iter().map(|x| format!(" {x}")));
        line.push_str(&format!(" ;{} ;{}", words(&r), words(c.as_slice())));
        say(&mut s, line);
    }
}

/// The same premises in other words: a bound may be one further away, with a hole at its old value.
fn said_otherwise(rng: &mut Rng, reason: &[Atom]) -> Vec<Atom> {
    let mut out = Vec::new();
    for a in reason {
        let (v, k, x) = (a.variable as i64, kind_of(a.comparison) as i64, a.value as i64);
        let off = if k == 0 { x - 1 } else { x + 1 };
        if k < 2 && rng.one_in(6) && off.abs() <= VALUE {
            let both = [atom(v, k, off), atom(v, 3, off)];
            out.extend(if rng.one_in(2) { both } else { [both[1], both[0]] });
        } else {
            out.push(*a);
        }
    }
    if rng.one_in(3) && out.len() > 1 {
        let k = rng.to(1, out.len() as i64 - 1) as usize;
        out.rotate_left(k);
    }
    out
}

/// Checks with a consequent of each of the four kinds, about the place where they pass or just do not: a post's reason with the post;
/// with a start of its task before the bound barred; or with the task's latest start before the bound, where any consequent on it passes.
pub fn gen_kinds(seed: u64, count: usize, nmax: i64, spread: i64) {
    let mut rng = Rng(seed);
    let mut s = Session::default();
    let mut made = 0;
    while made < count {
        let n = rng.to(2, nmax.max(2)) as usize;
        let p = durations(&mut rng, n, spread);
        let d: Vec<i32> = p.iter().map(|x| *x as i32).collect();
        let tasks = ranges_for(&mut rng, &p, spread);
        let o = Machine::create(&d).run(ranges(&pairs(&tasks), &[]));
        for (task, bound, reason) in o.posts.iter().take(4) {
            let (i, b) = (*task as i64, *bound as i64 + rng.to(-1, 1));
            let kind = rng.to(0, 3);
            let mut premises = said_otherwise(&mut rng, reason);
            let value = match kind {
                0 => b,
                3 => b - 1 - rng.to(0, 2),
                _ => {
                    let at = rng.to(0, premises.len() as i64) as usize;
                    premises.insert(at, atom(i, 1, b - 1));
                    b - 1 - rng.to(0, 3)
                }
            };
            let mut line = String::from("check");
            line.extend(d.iter().map(|x| format!(" {x}")));
            line.push_str(&format!(" ;{} ;{}", words(&premises), words(&[atom(i, kind, value)])));
            say(&mut s, line);
            made += 1;
        }
    }
}

pub fn gen_states(seed: u64, count: usize) {
    let mut rng = Rng(seed);
    let mut s = Session::default();
    for _ in 0..count {
        say(&mut s, "state".into());
        let base = [0, 0, -7, VALUE, -VALUE][rng.to(0, 4) as usize];
        let width = [2, 5, 12, 30][rng.to(0, 3) as usize];
        let variables = rng.to(1, 3);
        let length = rng.to(1, 40);
        if rng.one_in(3) {
            let premises = random_atoms(&mut rng, variables, length.min(20), base, width);
            let consequent = if rng.one_in(2) { random_atoms(&mut rng, variables, 1, base, width) } else { vec![] };
            say(&mut s, format!("prepare{} ;{}", words(&premises), words(&consequent)));
        }
        // Now and then a state near its sixteen holes: mostly != on one variable.
        let full = rng.one_in(4);
        let (length, width, variables) = if full { (50, 15, 1) } else { (length, width, variables) };
        for _ in 0..length {
            let one = if full && !rng.one_in(20) || rng.one_in(2) {
                vec![atom(rng.to(0, variables - 1), 3, (base + rng.to(-width, width)).clamp(-VALUE, VALUE))]
            } else {
                random_atoms(&mut rng, variables, 1, base, width)
            };
            match rng.to(0, 3) {
                0 => say(&mut s, format!("is-true{}", words(&one))),
                1 => {
                    let v = one[0].variable;
                    say(&mut s, format!("lower {v}"));
                    say(&mut s, format!("upper {v}"));
                }
                _ => say(&mut s, format!("apply{}", words(&one))),
            }
        }
    }
}

/// A fixed schedule, now and then a broken one.
pub fn fixed_tasks(rng: &mut Rng, nmax: i64, spread: i64) -> Vec<Task> {
    let n = rng.to(1, nmax) as usize;
    let p = durations(rng, n, spread);
    let total: i64 = p.iter().sum();
    let gap = [0, 1, spread, 100][rng.to(0, 3) as usize];
    let mut t = match rng.to(0, 4) {
        0 => -limit(),
        1 => limit() - (total - p[n - 1]).min(limit()),
        2 => -total,
        _ => rng.to(-spread, spread),
    };
    let mut order: Vec<usize> = (0..n).collect();
    for k in (1..n).rev() {
        order.swap(k, rng.to(0, k as i64) as usize);
    }
    let mut out = vec![Task { e: 0, l: 0, p: 1 }; n];
    for k in order {
        out[k] = Task { e: t, l: t, p: p[k] };
        t += p[k] + rng.to(0, gap);
    }
    if out.iter().any(|x| x.e > limit()) {
        let off = out.iter().map(|x| x.e).max().unwrap() - limit();
        for x in out.iter_mut() {
            x.e -= off;
            x.l -= off;
        }
    }
    if rng.one_in(6) {
        let k = rng.to(0, n as i64 - 1) as usize;
        match rng.to(0, 2) {
            0 => out[k].l = (out[k].l + 1).min(limit()),
            1 => {
                out[k].e -= 1;
                out[k].l -= 1;
            }
            _ => out[k].e = out[k].e.saturating_add(1),
        }
    }
    out
}

/// Vectors for requests (f), (h), (i), (j), (k).
pub fn gen_requests(seed: u64, count: usize, nmax: i64, spread: i64) {
    let mut rng = Rng(seed);
    for _ in 0..count {
        let t = fixed_tasks(&mut rng, nmax, spread);
        let mut s = Session::default();
        say(&mut s, format!("create{}", t.iter().map(|x| format!(" {}", x.p)).collect::<String>()));
        let r: String = t.iter().map(|x| format!(" {} {}", x.e, x.l)).collect();
        say(&mut s, format!("page{r}"));
        let moment = if rng.one_in(8) { rng.to(-limit() - 1, limit() + 1) } else { t[0].e + rng.to(-spread, spread) };
        let length = [0, 1, 2, spread, limit(), limit() + 1][rng.to(0, 5) as usize];
        say(&mut s, format!("free{r} ; {moment} {length}"));
        let late = [0, 1, 59, 60, 61, 1440, 1441, 3540, 3541, 100000];
        let due: String = t
            .iter()
            .map(|x| format!(" {}", x.e + x.p - late[rng.to(0, 9) as usize] + if rng.one_in(3) { rng.to(-2, 2) } else { 0 }))
            .collect();
        say(&mut s, format!("charges{r} ;{due}"));
        let w = [0, 1, 2, spread, spread * 3, limit(), limit() + 1][rng.to(0, 6) as usize];
        say(&mut s, format!("busiest{r} ; {w}"));
        let n = rng.to(1, nmax) as usize;
        let p = durations(&mut rng, n, spread);
        let t = ranges_for(&mut rng, &p, spread);
        say(&mut s, format!("create{}", p.iter().map(|x| format!(" {x}")).collect::<String>()));
        let mut line: String = t.iter().map(|x| format!(" {} {}", x.e, x.l)).collect();
        for (k, h) in holes_for(&mut rng, &t).iter().enumerate() {
            if !h.is_empty() {
                line.push_str(&format!(" ; {k}"));
                line.extend(h.iter().map(|v| format!(" {v}")));
            }
        }
        say(&mut s, format!("precede{line}"));
        let r: String = t.iter().map(|x| format!(" {} {}", x.e, x.l)).collect();
        for k in 0..n {
            say(&mut s, format!("precede-why {k}{r}"));
            say(&mut s, format!("precede-bound {k}{r}"));
        }
    }
}

/// Series of adds, removals and runs from a creation (request c).
pub fn gen_history(seed: u64, count: usize, nmax: i64, spread: i64) {
    let mut rng = Rng(seed);
    for _ in 0..count {
        let n = rng.to(1, nmax) as usize;
        let mut p = durations(&mut rng, n, spread);
        let mut s = Session::default();
        say(&mut s, format!("create{}", p.iter().map(|x| format!(" {x}")).collect::<String>()));
        for _ in 0..rng.to(1, 10) {
            match rng.to(0, 3) {
                0 if (p.len() as i64) < nmax => {
                    let room = limit() - p.iter().sum::<i64>();
                    if room < 1 {
                        continue;
                    }
                    let d = rng.to(1, spread.min(room));
                    p.push(d);
                    say(&mut s, format!("add {d}"));
                }
                1 if p.len() > 1 => {
                    let k = rng.to(0, p.len() as i64 - 1);
                    p.remove(k as usize);
                    say(&mut s, format!("remove {k}"));
                }
                _ => {
                    let t = ranges_for(&mut rng, &p, spread);
                    let r: String = t.iter().map(|x| format!(" {} {}", x.e, x.l)).collect();
                    say(&mut s, format!("run{r}"));
                }
            }
        }
    }
}

/// Inputs of A's program, good and damaged.
pub fn gen_program(seed: u64, count: usize, nmax: i64, spread: i64) {
    let mut rng = Rng(seed);
    let mut s = Session::default();
    for _ in 0..count {
        let n = if rng.one_in(20) { rng.to(46, 51) } else { rng.to(1, nmax) } as usize;
        let p = durations(&mut rng, n, spread);
        let t = ranges_for(&mut rng, &p, spread);
        let mut words: Vec<String> = vec![n.to_string()];
        for x in &t {
            words.extend([x.e.to_string(), x.l.to_string(), x.p.to_string()]);
        }
        for _ in 0..[0, 0, 1, 2][rng.to(0, 3) as usize] {
            let k = rng.to(0, words.len() as i64 - 1) as usize;
            match rng.to(0, 9) {
                0 => {
                    words.remove(k);
                    if words.is_empty() {
                        words.push("0".into());
                    }
                }
                1 => words.insert(k, "7".into()),
                2 => words[k] = (limit() + rng.to(-1, 1)).to_string(),
                3 => words[k] = (-limit() + rng.to(-1, 1)).to_string(),
                4 => words[k] = (2147483648i64 + rng.to(-1, 0)).to_string(),
                5 => words[k] = (-2147483648i64 + rng.to(-1, 0)).to_string(),
                6 => words[k] = ["0", "-1", "-", "x", "1x", "--1", "00", "-0", "007", "1.5"][rng.to(0, 9) as usize].into(),
                7 if words.len() > 3 => words[3] = rng.to(-1, 0).to_string(),
                8 if words.len() > 3 => words.swap(1, 2),
                _ => {}
            }
        }
        let mut line = String::from("program ");
        for (k, w) in words.iter().enumerate() {
            line.push_str(w);
            line.push_str(if k % 3 == 0 { "\\n" } else { " " });
        }
        say(&mut s, line);
    }
}
