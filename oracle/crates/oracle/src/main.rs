mod api;
mod audit;
mod bench;
mod cli;
mod conflicts;
mod r#gen;
mod judge;
mod requests;
mod rng;

use std::io::{BufRead, Read};

fn main() {
    api::quiet_panics();
    let args: Vec<String> = std::env::args().skip(1).collect();
    let number = |k: usize, default: i64| args.get(k).and_then(|a| a.parse().ok()).unwrap_or(default);
    let (seed, count) = (number(1, 1) as u64, number(2, 100) as usize);
    let (nmax, spread) = (number(3, 6), number(4, 12));
    match args.first().map(String::as_str) {
        None | Some("--echo") => {
            let echo = !args.is_empty();
            let mut session = cli::Session::default();
            for line in std::io::stdin().lock().lines() {
                let line = line.unwrap();
                let line = line.strip_prefix("> ").unwrap_or(&line);
                if line.trim().is_empty() || line.starts_with('#') {
                    continue;
                }
                if echo {
                    println!("> {line}");
                }
                print!("{}", session.command(line));
            }
        }
        Some("program") => {
            let mut text = String::new();
            let ok = std::io::stdin().read_to_string(&mut text).is_ok();
            print!("{}", if ok { cli::program(&text) } else { "refused 0\n".into() });
        }
        Some("gen-runs") => r#gen::gen_runs(seed, count, nmax, spread, "runs"),
        Some("gen-mirror") => r#gen::gen_runs(seed, count, nmax, spread, "mirror"),
        Some("gen-barred") => r#gen::gen_runs(seed, count, nmax, spread, "barred"),
        Some("gen-met") => r#gen::gen_runs(seed, count, nmax, spread, "met"),
        Some("gen-late") => r#gen::gen_runs(seed, count, nmax, spread, "late"),
        Some("gen-quick") => r#gen::gen_runs(seed, count, nmax, spread, "quick"),
        Some("gen-checks") => r#gen::gen_checks(seed, count, nmax, spread),
        Some("gen-kinds") => r#gen::gen_kinds(seed, count, nmax, spread),
        Some("gen-requests") => r#gen::gen_requests(seed, count, nmax, spread),
        Some("gen-history") => r#gen::gen_history(seed, count, nmax, spread),
        Some("gen-program") => r#gen::gen_program(seed, count, nmax, spread),
        Some("gen-states") => r#gen::gen_states(seed, count),
        Some("audit") => audit::audit(args.get(1).map_or("all", String::as_str), number(2, 1) as u64, number(3, 20000) as usize),
        Some("judge") => {
            let file = |k: usize| std::fs::read_to_string(args.get(k).expect("a file")).expect("a file that can be read");
            match conflicts::judge(&file(1), &file(2)) {
                Ok(told) => println!("judged over all sets: {told}"),
                Err(wrong) => {
                    print!("{wrong}");
                    std::process::exit(1);
                }
            }
        }
        Some("bench") => bench::bench(),
        Some(other) => {
            eprintln!("unknown: {other}");
            std::process::exit(2);
        }
    }
}
