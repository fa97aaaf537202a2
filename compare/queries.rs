// Makes cases for crates/replay_plans/src/queries.rt and the answers to them: queries of every kind, and what 000 makes of them
// (compare/run says how it is built, with stand-ins). What is refused is read off document 01's table, independently of the Rattle;
// every other query is planned by 000 itself, which also lists its plans and weighs them.
#[path = "../target/compare/plan.rs"]
mod plan;
#[path = "../target/compare/planner.rs"]
mod planner;

mod capacity;
mod datom;
mod held;
mod plan_cases;
mod plan_line;
mod query;
mod query_cases;
mod random;

use capacity::{SELECTS, SLOTS, STATEMENTS};
use held::{drive, Pair, QUERIES, QUERY_CHECKS};
use plan::Plan;
use plan_line::{index_text, plan_text};
use planner::Planner;
use plan_cases::text;
use query_cases::{case, chain, numbers, query_refusal, refusal, Case};
use random::Random;

// The plans of a query are listed up to this many.
const LISTED: usize = 500;

// The cost, where it fits: 001 wraps.
fn cost_text(plan: &Plan) -> String {
    if plan.scans.len() <= 9 {
        plan.cost().to_string()
    } else {
        "left out".to_string()
    }
}

fn answer(case: &Case) -> String {
    if let Some((number, place)) = refusal(case) {
        return format!("refused {} at {}", number, place);
    }
    let query = query_cases::query_of(case);
    let mut planner = Planner::new(&query);
    planner.initialize_scans();
    let mut out = format!("{}; plans", plan_text(planner.get_plan()));
    let mut listed = 0;
    loop {
        out += &format!(" {} {}", index_text(planner.get_plan()), cost_text(planner.get_plan()));
        listed += 1;
        if listed == LISTED {
            return out + " ..";
        }
        if !planner.next() {
            return out + &format!(" again {}", index_text(planner.get_plan()));
        }
    }
}

fn all_cases() -> Vec<Case> {
    let e = [(0, 5, false, 1), (1, 9, true, 7)];
    let reversed = [e[1], e[0]];
    let mut all = vec![case(2, &e, &[1]), case(2, &reversed, &[1])];
    // (x,5,x) alone; (x,5,y) then (x,7,x); reversed
    all.push(case(1, &[(0, 5, false, 0)], &[0]));
    all.push(case(2, &[(0, 5, false, 1), (0, 7, false, 0)], &[0]));
    all.push(case(2, &[(0, 7, false, 0), (0, 5, false, 1)], &[0]));
    // statements, slots and selects at the capacity and one past it; none; no statements; as many variables as there are numbers
    all.push(chain(STATEMENTS, 0));
    all.push(chain(STATEMENTS + 1, 0));
    all.push(chain(STATEMENTS - 1, 1));
    all.push(case(2, &[e[0]; STATEMENTS], &[1; SELECTS]));
    all.push(case(2, &[e[0]; STATEMENTS], &[1; SELECTS + 1]));
    let slots = SLOTS as u16;
    let mut many: Vec<_> = (0..slots / 2).map(|i| (2 * i, 5, false, 2 * i as u64 + 1)).collect();
    all.push(case(slots as u64, &many, &[slots - 1]));
    many.last_mut().unwrap().2 = true;
    all.push(case(slots as u64, &many, &[slots - 1]));
    all.push(case(slots as u64 - 1, &many, &[slots - 2]));
    all.push(case(slots as u64 + 1, &many, &[0]));
    all.push(case(2, &e, &[]));
    all.push(case(0, &[], &[0]));
    all.push(case(1, &[], &[0]));
    all.push(case(u64::max_value(), &e, &[1]));
    all.push(case(2, &[(0, u64::max_value(), true, u64::max_value()), (1, 0, true, 0)], &[0, 1, 0]));
    all.push(case(2, &[(0, 5, false, 2), (1, 9, true, 7)], &[1]));
    all.push(case(2, &e, &[1, 65535]));
    all.push(case(3, &e, &[1]));
    let mut source = Random(20260102);
    for _ in 0..700 {
        all.push(query_cases::random(&mut source));
    }
    all
}

// How many plans an answer lists: each is its indexes and its cost, which may be left out in two words.
fn plans_of(answer: &str) -> usize {
    let listing = answer.replace("left out", "left").replace(" ..", "");
    let plans = listing.split("; plans").nth(1).unwrap_or("").split(" again ").next().unwrap();
    plans.split_whitespace().count() / 2
}

// The query planned, and the check of it alone.
fn pair(case: &Case) -> Pair {
    let cases = held::case(QUERIES, &numbers(case)) + &held::case(QUERY_CHECKS, &numbers(case));
    (cases, format!("{}\nquery {}\n", answer(case), text(query_refusal(case))))
}

fn main() {
    drive("queries", &|| all_cases().iter().map(pair).collect(), &|held, random, count| {
        for _ in 0..count {
            let pair = pair(&if random.below(3) == 0 { query_cases::dense(random) } else { query_cases::drawn(random) });
            held.count("plans listed", plans_of(&pair.1));
            held.add(pair);
        }
    });
}
