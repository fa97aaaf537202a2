// Times evaluation against 002, which is compiled unchanged with the stand-ins of compare/ (bench/run says how). Both get the same facts
// and the same plans, and must yield the same rows before anything is timed.
#[path = "../target/bench/eval.rs"]
mod eval;
#[path = "../target/bench/plan.rs"]
mod plan;

#[path = "../compare/capacity.rs"]
mod capacity;
#[path = "../compare/database.rs"]
mod database;
#[path = "../compare/datom.rs"]
mod datom;
#[path = "../compare/plan_cases.rs"]
mod plan_cases;
#[path = "../compare/random.rs"]
mod random;
#[path = "../compare/rust_plan.rs"]
mod rust_plan;

mod timing;

use database::{heap, store, tables, Nothing, View};
use datom::Tid;
use eval::Evaluator;
use plan::Plan;
use plan_cases::{case, numbers, Case};
use random::Random;
use rust_plan::rust_plan;
use std::hint::black_box;
use timing::{median, time};

// A lent slice is a pointer and a length.
#[link(name = "bench_calls", kind = "static")]
extern "C" {
    fn timed_rows(
        text: *const u8, text_length: usize,
        aevt: *const u64, aevt_length: usize, avet: *const u64, avet_length: usize, eavt: *const u64, eavt_length: usize,
        rows: *mut u64, rows_length: usize,
    ) -> usize;
    fn timed_check(
        text: *const u8, text_length: usize,
        aevt: *const u64, aevt_length: usize, avet: *const u64, avet_length: usize, eavt: *const u64, eavt_length: usize,
    ) -> u64;
}

const FACTS: usize = 600;
const ROUNDS: usize = 301;

// About so long is a round of 002, in microseconds: long enough for the clock, and short beside what else the machine does.
const ROUND: f64 = 1000.0;

// The Rattle: reads the plan, checks and evaluates.
fn ours(text: &str, t: &[Vec<u64>; 3], rows: &mut [u64]) -> usize {
    unsafe {
        timed_rows(
            text.as_ptr(), text.len(),
            t[0].as_ptr(), t[0].len(), t[1].as_ptr(), t[1].len(), t[2].as_ptr(), t[2].len(),
            rows.as_mut_ptr(), rows.len(),
        )
    }
}

// Reads the plan and checks.
fn check(text: &str, t: &[Vec<u64>; 3]) -> u64 {
    unsafe { timed_check(text.as_ptr(), text.len(), t[0].as_ptr(), t[0].len(), t[1].as_ptr(), t[1].len(), t[2].as_ptr(), t[2].len()) }
}

// 002: every row is taken, and nothing more is done with it.
fn theirs(plan: &Plan, view: &View<Nothing, Nothing>) {
    for row in Evaluator::new(plan, view) {
        black_box(row);
    }
}

fn queries() -> Vec<(&'static str, Case)> {
    let variables = |n: usize| vec![(false, 0); n];
    let mut constant = variables(3);
    constant.push((true, 7));
    vec![
        // (x, 5, y) (y, 7, z) (z, 9, x)
        ("out-out aevt, in-out aevt, in-in eavt", case(vec![(0, 0, 0, 5, 1), (0, 1, 1, 7, 2), (2, 2, 2, 9, 0)], variables(3), vec![0, 2])),
        // (x, 5, y) (x, 7, z) (w, 9, z)
        ("out-out avet, in-out eavt, in-out avet", case(vec![(1, 0, 0, 5, 1), (2, 1, 0, 7, 2), (1, 1, 3, 9, 2)], variables(4), vec![0, 2])),
        // (x, 5, 7) (x, 7, y) (y, 9, z)
        ("in-out avet, in-out aevt, in-out eavt", case(vec![(1, 1, 0, 5, 3), (0, 1, 0, 7, 1), (2, 1, 1, 9, 2)], constant, vec![0, 1, 2])),
    ]
}

// Facts of one attribute, one to three for each entity: their number, and how many.
fn short_ranges(facts: usize) -> Vec<(u64, u64, u64)> {
    let mut random = Random(20260105);
    let (mut all, mut entity) = (Vec::new(), 0);
    while all.len() < facts {
        for value in 0..1 + random.below(3) {
            all.push((entity, 5, value));
        }
        entity += 1;
    }
    all.truncate(facts);
    all
}

// Times a plan over tables of these facts, and writes the figures. Returns what the check took, round by round.
fn compare(name: &str, case: &Case, facts: &[(u64, u64, u64)], rounds: usize) -> Vec<f64> {
    let view = View::new(facts, Tid::min());
    let t = tables(facts);
    let plan = rust_plan(case, &[]);
    let text = numbers(case);
    let want: Vec<u64> = Evaluator::new(&plan, &view).flat_map(|row| row.iter().map(|v| v.0).collect::<Vec<_>>()).collect();
    let mut rows = vec![0; want.len()];
    assert_eq!(check(&text, &t), 0);
    let count = ours(&text, &t, &mut rows);
    assert_eq!((count * case.select.len(), &rows), (want.len(), &want));
    let once = median((0..rounds).map(|_| time(|| theirs(&plan, &view))).collect());
    let times = (ROUND / once) as u64 + 1;
    let (mut all, mut old, mut new, mut ratios) = (Vec::new(), Vec::new(), Vec::new(), Vec::new());
    for _ in 0..rounds {
        // Evaluation begins with the check, so 002 has the check before it too: both then find the machine as the check leaves it.
        let checks = time(|| for _ in 0..times { black_box(check(&text, &t)); }) / times as f64;
        let rust = time(|| for _ in 0..times { black_box(check(&text, &t)); theirs(&plan, &view) }) / times as f64 - checks;
        let rattle = time(|| for _ in 0..times { black_box(ours(&text, &t, &mut rows)); }) / times as f64 - checks;
        old.push(rust);
        all.push(checks);
        new.push(rattle);
        ratios.push(rattle / rust);
    }
    println!("{}: {} rows, 002 {:.1} us, here {:.1} us, ratio {:.2}", name, count, median(old), median(new), median(ratios));
    all
}

fn main() {
    let mut random = Random(20260105);
    let mut facts: Vec<(u64, u64, u64)> = Vec::new();
    while facts.len() < FACTS {
        let fact = (random.below(40), [5, 7, 9][random.below(3) as usize], random.below(40));
        if !facts.contains(&fact) {
            facts.push(fact);
        }
    }
    let mut all = Vec::new();
    for (name, case) in queries() {
        all.extend(compare(name, &case, &facts, ROUNDS));
    }
    println!("reading a plan, and the check of it and of the tables: {:.1} us", median(all));
    // (x, 5, y) (x, 5, z): for each fact a range of one to three rows.
    for n in [1_000, 10_000, 100_000] {
        let case = case(vec![(0, 0, 0, 5, 1), (0, 1, 0, 5, 2)], vec![(false, 0); 3], vec![0, 1, 2]);
        compare(&format!("short ranges, {} facts", n), &case, &short_ranges(n), if n < 100_000 { ROUNDS } else { 31 });
    }
}
