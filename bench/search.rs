// Times the search against one over the Rust: 005's swaps, 000's plans and 001's costs, each compiled unchanged with the stand-ins of
// compare/ (bench/run says how). Both must find the same cost before anything is timed.
#[path = "../target/bench/permutation.rs"]
mod permutation;
#[path = "../target/bench/plan.rs"]
mod plan;
#[path = "../target/bench/planner.rs"]
mod planner;

#[path = "../compare/capacity.rs"]
mod capacity;
#[path = "../compare/datom.rs"]
mod datom;
#[path = "../compare/query.rs"]
mod query;
#[path = "../compare/query_cases.rs"]
mod query_cases;
#[path = "../compare/random.rs"]
mod random;

mod timing;

use permutation::Permutations;
use planner::Planner;
use query_cases::{bound_twice, case, chain, numbers, query_of, Case};
use std::hint::black_box;
use timing::{median, time};

#[link(name = "bench_calls", kind = "static")]
extern "C" {
    fn timed_search(text: *const u8, text_length: usize) -> u64;
}

const ROUNDS: usize = 15;

fn ours(text: &str) -> u64 {
    unsafe { timed_search(text.as_ptr(), text.len()) }
}

// The least cost, and how many plans were weighed. Only the order and the indexes of the best are kept, which is all that makes its plan.
fn theirs(case: &Case) -> (u64, u64) {
    let mut order: Vec<usize> = (0..case.statements.len()).collect();
    let mut swaps = Permutations::new(order.len());
    let mut best = (u64::max_value(), vec![], vec![]);
    let mut weighed = 0;
    loop {
        let mut arranged = case.clone();
        arranged.statements = order.iter().map(|i| case.statements[*i]).collect();
        if bound_twice(&arranged.statements).is_none() {
            let query = query_of(&arranged);
            let mut planner = Planner::new(&query);
            planner.initialize_scans();
            loop {
                let cost = planner.get_plan().cost();
                weighed += 1;
                if cost < best.0 {
                    best = (cost, order.clone(), planner.get_plan().scans.iter().map(|s| s.index.clone()).collect());
                }
                if !planner.next() {
                    break;
                }
            }
        }
        match swaps.next() {
            Some((a, b)) => order.swap(a, b),
            None => break,
        }
    }
    black_box(&best);
    (best.0, weighed)
}

fn main() {
    let pair: Vec<_> = (0..6).map(|i| (0, i, false, 1)).collect();
    let queries = vec![
        ("six statements on one pair of variables", case(2, &pair, &[1])),
        ("a chain of six statements", chain(6, 0)),
        ("a chain of three, and three constants", chain(3, 3)),
    ];
    for (name, case) in queries {
        let text = numbers(&case);
        let (cost, weighed) = theirs(&case);
        assert_eq!(ours(&text), cost);
        let (mut old, mut new, mut ratios) = (Vec::new(), Vec::new(), Vec::new());
        for _ in 0..ROUNDS {
            let rust = time(|| { black_box(theirs(&case)); });
            let rattle = time(|| { black_box(ours(&text)); });
            old.push(rust);
            new.push(rattle);
            ratios.push(rattle / rust);
        }
        println!("{}: {} plans, cost {}, Rust {:.2} ms, here {:.2} ms, ratio {:.2}", name, weighed, cost, median(old) / 1000.0, median(new) / 1000.0, median(ratios));
    }
}
