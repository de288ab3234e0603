//! Commands that compare the library with other checkers.

use compare::bench::{self, bench, once, Row};
use compare::comparisons::{self, comparisons};
use compare::differential::{differential, shown, Kinds, Plan};
use compare::pairs::{self, pairs};
use compare::readings::{readings, Extent};
use second::certificate::Kind;
use std::process::ExitCode;
use std::str::FromStr;

const USAGE: &str = "\
usage: compare differential --seed S --loads N --queries M --polls P [--kind hd|h2|h3|both|all]
       compare pairs --seed S --pairs N --calls M [--kind hd|h2|h3|both|all]
       compare comparisons --seed S --pairs N [--kind hd|h2|h3|both|all]
       compare reading --all|--part
       compare bench [--part]
       compare once CALL CERTIFICATE [N]
           CALL: screen, judge, load, query-first, query-last, poll-first, poll-last, write, list, compare
           CERTIFICATE: L, typical, largest, worst, 'typical H2', 'largest H2', 'typical H3', 'largest H3'
both: HD and H2; all, which is also what is drawn without --kind: HD, H2 and H3.
";

fn main() -> ExitCode {
    let words: Vec<String> = std::env::args().skip(1).collect();
    let words: Vec<&str> = words.iter().map(String::as_str).collect();
    match words[..] {
        ["differential", ref options @ ..] => match plan(options) {
            Some(plan) => run_differential(&plan),
            None => usage(),
        },
        ["pairs", ref options @ ..] => match pair_plan(options) {
            Some(plan) => run_pairs(&plan),
            None => usage(),
        },
        ["comparisons", ref options @ ..] => match comparison_plan(options) {
            Some(plan) => run_comparisons(&plan),
            None => usage(),
        },
        ["reading", "--all"] => run_readings(Extent::All),
        ["reading", "--part"] => run_readings(Extent::Part),
        ["bench"] => run_bench(bench::Extent::All),
        ["bench", "--part"] => run_bench(bench::Extent::Part),
        ["once", call, certificate] => run_once(call, certificate, 1),
        ["once", call, certificate, times] => match times.parse() {
            Ok(times) => run_once(call, certificate, times),
            Err(_) => usage(),
        },
        _ => usage(),
    }
}

fn usage() -> ExitCode {
    eprint!("{USAGE}");
    ExitCode::from(2)
}

/// The word behind an option.
fn word<'a>(options: &[&'a str], name: &str) -> Option<&'a str> {
    let at = options.iter().position(|&option| option == name)?;
    options.get(at + 1).copied()
}

/// The number behind an option.
fn number<T: FromStr>(options: &[&str], name: &str) -> Option<T> {
    word(options, name)?.parse().ok()
}

/// The kinds behind `--kind`, and how many words are there for it.
fn kinds(options: &[&str]) -> Option<(Kinds, usize)> {
    let kinds = match word(options, "--kind") {
        Some("hd") => Kinds::Only(Kind::Hd),
        Some("h2") => Kinds::Only(Kind::H2),
        Some("h3") => Kinds::Only(Kind::H3),
        Some("both") => Kinds::Both,
        Some("all") => Kinds::All,
        Some(_) => return None,
        None => return Some((Kinds::All, 0)),
    };
    Some((kinds, 2))
}

/// `--seed S --loads N --queries M --polls P`, and `--kind K` or not, in any order.
fn plan(options: &[&str]) -> Option<Plan> {
    let (kinds, size) = kinds(options)?;
    let plan = Plan {
        seed: number(options, "--seed")?,
        loads: number(options, "--loads")?,
        queries: number(options, "--queries")?,
        polls: number(options, "--polls")?,
        kinds,
    };
    (options.len() == 8 + size && plan.loads > 0).then_some(plan)
}

/// `--seed S --pairs N --calls M`, and `--kind K` or not, in any order.
fn pair_plan(options: &[&str]) -> Option<pairs::Plan> {
    let (kinds, size) = kinds(options)?;
    let plan = pairs::Plan {
        seed: number(options, "--seed")?,
        pairs: number(options, "--pairs")?,
        calls: number(options, "--calls")?,
        kinds,
    };
    (options.len() == 6 + size && plan.pairs > 0).then_some(plan)
}

/// `--seed S --pairs N`, and `--kind K` or not, in any order.
fn comparison_plan(options: &[&str]) -> Option<comparisons::Plan> {
    let (kinds, size) = kinds(options)?;
    let plan = comparisons::Plan {
        seed: number(options, "--seed")?,
        pairs: number(options, "--pairs")?,
        kinds,
    };
    (options.len() == 4 + size && plan.pairs > 0).then_some(plan)
}

fn run_differential(plan: &Plan) -> ExitCode {
    match differential(plan) {
        Ok(tally) => {
            println!("{tally}, 0 differences");
            ExitCode::SUCCESS
        }
        Err(found) => {
            print!("{}", shown(plan.seed, &found));
            ExitCode::FAILURE
        }
    }
}

fn run_pairs(plan: &pairs::Plan) -> ExitCode {
    match pairs(plan) {
        Ok(tally) => {
            println!("{tally}, 0 differences");
            ExitCode::SUCCESS
        }
        Err(found) => {
            print!("{}", pairs::shown(plan.seed, &found));
            ExitCode::FAILURE
        }
    }
}

fn run_comparisons(plan: &comparisons::Plan) -> ExitCode {
    match comparisons(plan) {
        Ok(tally) => {
            println!("{tally}, 0 differences");
            ExitCode::SUCCESS
        }
        Err(found) => {
            print!("{}", comparisons::shown(plan.seed, &found));
            ExitCode::FAILURE
        }
    }
}

fn run_readings(extent: Extent) -> ExitCode {
    match readings(extent) {
        Ok(tried) => {
            println!("{tried} readings, 0 differences");
            ExitCode::SUCCESS
        }
        Err(difference) => {
            print!("{difference}");
            ExitCode::FAILURE
        }
    }
}

fn run_bench(extent: bench::Extent) -> ExitCode {
    println!("{}", Row::TITLE);
    match bench(extent, |row| println!("{row}")) {
        Ok(()) => ExitCode::SUCCESS,
        Err(what) => {
            eprintln!("{what}");
            ExitCode::FAILURE
        }
    }
}

fn run_once(call: &str, certificate: &str, times: u32) -> ExitCode {
    match once(call, certificate, times) {
        Ok(report) => {
            println!("{report}");
            ExitCode::SUCCESS
        }
        Err(what) => {
            eprintln!("{what}");
            ExitCode::FAILURE
        }
    }
}
