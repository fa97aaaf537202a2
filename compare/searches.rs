// Makes cases for crates/replay_plans/src/searches.rt and the answers to them: queries of every kind, and the first plan of least cost
// over every sound order, by 005's swaps, 000's plans and 001's costs (compare/run says how it is built, with stand-ins). What is
// refused is read off document 01's table, independently of the Rattle.
#[path = "../target/compare/permutation.rs"]
mod permutation;
#[path = "../target/compare/plan.rs"]
mod plan;
#[path = "../target/compare/planner.rs"]
mod planner;

mod capacity;
mod datom;
mod held;
mod plan_line;
mod query;
mod query_cases;
mod random;

use capacity::{SEARCHED, STATEMENTS};
use held::{drive, Pair, SEARCHES};
use permutation::Permutations;
use plan_line::plan_text;
use planner::Planner;
use query_cases::{bound_twice, case, chain, numbers, query_refusal, Case};
use random::Random;

// The order, the plan as text and the cost of the first plan of least cost.
fn cheapest(case: &Case) -> Option<(Vec<usize>, String, u64)> {
    let mut order: Vec<usize> = (0..case.statements.len()).collect();
    let mut swaps = Permutations::new(order.len());
    let mut best: Option<(Vec<usize>, String, u64)> = None;
    loop {
        let mut arranged = case.clone();
        arranged.statements = order.iter().map(|i| case.statements[*i]).collect();
        if bound_twice(&arranged.statements).is_none() {
            let query = query_cases::query_of(&arranged);
            let mut planner = Planner::new(&query);
            planner.initialize_scans();
            loop {
                let cost = planner.get_plan().cost();
                if best.iter().all(|b| cost < b.2) {
                    best = Some((order.clone(), plan_text(planner.get_plan()), cost));
                }
                if !planner.next() {
                    break;
                }
            }
        }
        match swaps.next() {
            Some((a, b)) => order.swap(a, b),
            None => return best,
        }
    }
}

fn answer(case: &Case) -> String {
    let many = if case.statements.len() > SEARCHED { Some((17, 0)) } else { None };
    let (verdict, best) = match query_refusal(case).or(many) {
        Some((number, place)) => (format!("refused {} at {}", number, place), None),
        None => match cheapest(case) {
            None => ("refused 18 at 0".to_string(), None),
            some => ("found".to_string(), some),
        },
    };
    let (order, plan, cost) = best.unwrap_or((vec![], "".to_string(), 0));
    let order: String = (0..SEARCHED).map(|i| format!(" {}", order.get(i).unwrap_or(&0))).collect();
    format!("{}, order{}, cost {}, {}", verdict, order, cost, plan)
}

fn all_cases() -> Vec<Case> {
    let e = [(0, 5, false, 1), (1, 9, true, 7)];
    let mut all = vec![case(2, &e, &[1]), case(2, &[e[1], e[0]], &[1])];
    // (x,5,x) alone; (x,7,x) then (x,5,y); reversed
    all.push(case(1, &[(0, 5, false, 0)], &[0]));
    all.push(case(2, &[(0, 7, false, 0), (0, 5, false, 1)], &[0]));
    all.push(case(2, &[(0, 5, false, 1), (0, 7, false, 0)], &[0]));
    // as many statements as are searched, and one more; as many as fit, and one more; the most plans; no statements; refusals before 17
    all.push(chain(SEARCHED, 0));
    all.push(chain(SEARCHED + 1, 0));
    all.push(chain(SEARCHED / 2, SEARCHED / 2));
    all.push(chain(STATEMENTS, 0));
    all.push(chain(STATEMENTS + 1, 0));
    let pair: Vec<_> = (0..SEARCHED as u64).map(|i| (0, i, false, 1)).collect();
    all.push(case(2, &pair, &[1]));
    all.push(case(2, &pair, &[1, 0]));
    all.push(case(0, &[], &[0]));
    all.push(case(2, &e, &[]));
    all.push(case(u64::max_value(), &e, &[1]));
    all.push(case(SEARCHED as u64 + 2, &chain(SEARCHED + 1, 0).statements, &[SEARCHED as u16 + 2]));
    let mut source = Random(20260111);
    for _ in 0..400 {
        all.push(query_cases::random(&mut source));
    }
    for _ in 0..100 {
        all.push(bound_twice_case(&mut source));
    }
    all
}

// Of some statements, one or two bind a variable twice.
fn bound_twice_case(source: &mut Random) -> Case {
    let mut c = query_cases::random(source);
    for _ in 0..2 {
        let i = source.below(c.statements.len() as u64 + 1) as usize;
        let v = source.below(c.variables) as u16;
        c.statements.insert(i, (v, source.below(3), false, v as u64));
    }
    c
}

fn pair(case: &Case) -> Pair {
    (held::case(SEARCHES, &numbers(case)), answer(case) + "\n")
}

fn main() {
    drive("searches", &|| all_cases().iter().map(pair).collect(), &|held, random, count| {
        for i in 0..count {
            let pair = pair(&if i % 5 == 0 { bound_twice_case(random) } else { query_cases::drawn(random) });
            held.count("found", pair.1.starts_with("found") as usize);
            held.add(pair);
        }
    });
}
