// Makes cases for crates/replay_plans/src/plans.rt and the answers to them: plans of every kind, and what 001 makes of them (compare/run
// says how it is built, with a stand-in for `datom`). The check is read off document 01's table (compare/plan_cases.rs), independently
// of the Rattle; the cost is 001's own wherever it fits a u64 and 001 does not panic, and is summed in 128 bits to know where that is;
// `next` is 000's own wherever it is not refused. The smaller calls are asked of the scans alone, and of each scan by itself, and
// answered in the same way; a scan's slots, flow and next are read off 01, and held to 001 and 000 wherever these do not panic.
#[path = "../target/compare/plan.rs"]
mod plan;
#[path = "../target/compare/planner.rs"]
mod planner;

mod capacity;
mod plan_cases;
mod datom;
mod held;
mod plan_line;
mod query;
mod random;
mod rust_plan;

use capacity::{SCANS, SELECTS, SLOTS};
use held::{drive, Pair, PLANS, PLAN_PARTS};
use plan::EntityValueFlow;
use plan_cases::{case, check, counts_fault, damaged, drawn, e, in_order, numbers, out_out, sound, text, Case, Scan, Verdict};
use plan_line::index_text;
use planner::Planner;
use random::Random;
use rust_plan::rust_plan;

// 20, then 21 at the lowest such scan.
fn flows_fault(case: &Case) -> Verdict {
    counts_fault(case).or(case.scans.iter().position(is_out_out_eavt).map(|i| (21, i as u64)))
}

fn is_out_out_eavt(scan: &Scan) -> bool {
    scan.1 == 0 && scan.0 == 2
}

// The cost of scans, or 27 at the scan at which, from the last, it first passes 2^64 - 1.
fn weight(scans: &[Scan]) -> Result<u64, Verdict> {
    let mut cost: u128 = 1;
    for i in (0..scans.len()).rev() {
        let (index, flow, entity, attribute, _) = scans[i];
        let earlier: Vec<_> = scans[..i].iter().filter(|s| s.0 == index).collect();
        let key = earlier.iter().any(|s| if index == 2 { s.2 == entity } else { s.3 == attribute });
        let penalties = [[5, 10, 20], [10, 50, 60], [1, 90, 100]][index];
        let penalty = penalties[if key { 0 } else if earlier.is_empty() { 2 } else { 1 }];
        let steps = if flow == 0 { 100 } else if flow == 1 && index == 1 { 20 } else { 1 };
        cost = penalty + steps * cost;
        if cost > u64::max_value() as u128 {
            return Err(Some((27, i as u64)));
        }
    }
    Ok(cost as u64)
}

// 001's check tests a scan's slots against the number of scans: it is held to 01's where no scan names a slot between the two.
fn agrees_with_001(case: &Case, verdict: Verdict) {
    let slip = case.scans.iter().any(|s| in_order(s).iter().any(|k| (*k < case.slots.len()) != (*k < case.scans.len())));
    let asks_what_001_does_not = match verdict {
        Some((number, _)) => number == 20 || number == 13 || number == 21 || number == 29,
        None => false,
    };
    if slip || asks_what_001_does_not {
        return;
    }
    let plan = rust_plan(case, &[]);
    let passes = std::panic::catch_unwind(std::panic::AssertUnwindSafe(|| plan.check_invariants())).is_ok();
    assert_eq!(passes, verdict.is_none(), "001 and 01 part");
}

// What 000's `next` says, and the indexes after it; where that is refused, those that were given.
fn next_text(case: &Case) -> String {
    if let Some(fault) = flows_fault(case) {
        return format!("{} {}", text(Some(fault)), indexes(&claimed(case)));
    }
    let mut planner = Planner::damaged(rust_plan(case, &[]));
    let is_new = planner.next();
    format!("{} {}", yes(is_new), index_text(planner.get_plan()))
}

// What 001's `cost` says, or what it is refused for.
fn cost_text(case: &Case) -> String {
    let cost = match flows_fault(case) {
        None => weight(&case.scans).map(|_| rust_plan(case, &[]).cost()),
        fault => Err(fault),
    };
    match cost {
        Ok(number) => number.to_string(),
        Err(fault) => text(fault),
    }
}

fn answer(case: &Case) -> String {
    let verdict = check(case);
    agrees_with_001(case, verdict);
    format!("check {}, cost {}, next {}", text(verdict), cost_text(case), next_text(case))
}

// The scans that a plan's count names: those given and, where it claims more, those that the arrays hold past them.
fn claimed(case: &Case) -> Vec<Scan> {
    let mut scans = case.scans.clone();
    scans.resize(::std::cmp::min(case.scan_count, SCANS as u64) as usize, (0, 0, 0, 0, 0));
    scans
}

// The next index of a scan's cycle, and whether it is new. Out-out over eavt has none, and is refused.
fn next_index(scan: &Scan) -> (usize, bool) {
    let cycle: &[usize] = match (scan.1, scan.0) {
        (0, _) => &[0, 1],
        (1, 1) => &[1],
        (1, _) => &[0, 2],
        _ => &[0, 1, 2],
    };
    let at = cycle.iter().position(|i| *i == scan.0).unwrap() + 1;
    (cycle[at % cycle.len()], at < cycle.len())
}

fn indexes(scans: &[Scan]) -> String {
    scans.iter().map(|s| s.0.to_string()).collect()
}

fn yes(is_new: bool) -> &'static str {
    if is_new { "yes" } else { "no" }
}

// A scan by itself, held to 001 and 000 where it is not out-out over eavt; where it is, its next is refused and it stays.
fn scan_text(scan: &Scan) -> String {
    let slots = in_order(scan);
    let flow = match (scan.1, scan.0) {
        (0, _) => "out-out",
        (1, 1) => "out-in",
        (1, _) => "in-out",
        _ => "in-in",
    };
    let (mut eavt, mut said, mut index) = (" over eavt", text(Some((21, 0))), scan.0);
    if !is_out_out_eavt(scan) {
        let next = next_index(scan);
        let rust = rust_plan(&case(vec![*scan], vec![], vec![]), &[]);
        let by_001 = match rust.scans[0].entity_value_flow() {
            EntityValueFlow::OutOut => "out-out",
            EntityValueFlow::InOut => "in-out",
            EntityValueFlow::OutIn => "out-in",
            EntityValueFlow::InIn => "in-in",
        };
        assert_eq!((rust.scans[0].slots()[0].0 as usize, rust.scans[0].slots()[1].0 as usize, by_001), (slots[0], slots[1], flow));
        let mut planner = Planner::damaged(rust);
        assert_eq!((planner.next(), index_text(planner.get_plan())), (next.1, next.0.to_string()));
        eavt = "";
        said = yes(next.1).to_string();
        index = next.0;
    }
    let next = format!("scan {} {} {} {} {}", index, scan.1, scan.2, scan.3, scan.4);
    format!("; slots {} {} {}{} next {} {}", slots[0], slots[1], flow, eavt, said, next)
}

// What the smaller calls answer: those over scans are the calls over a plan that has nothing else.
fn parts(given: &Case) -> String {
    let scans = claimed(given);
    let each: String = scans.iter().map(scan_text).collect();
    let mut alone = case(scans, vec![], vec![]);
    alone.scan_count = given.scan_count;
    let (counts, flows) = (text(counts_fault(given)), text(flows_fault(given)));
    format!("counts {}, flows {}, cost {}, next {}{}", counts, flows, cost_text(&alone), next_text(&alone), each)
}

// Scans from letters: an index (a, v, e), in capitals for a key not used before; a flow (o, i, t: out-out, in-out, in-in).
fn spelt(letters: &str) -> Case {
    let mut last = [0u64; 3];
    let letters: Vec<char> = letters.chars().collect();
    let scans = letters
        .chunks(2)
        .enumerate()
        .map(|(i, pair)| {
            let index = "ave".find(pair[0].to_ascii_lowercase()).unwrap();
            let flow = "oit".find(pair[1]).unwrap();
            if pair[0].is_uppercase() {
                last[index] = i as u64 + 1;
            }
            (index, flow, if index == 2 { last[index] as u16 } else { 0 }, if index == 2 { 0 } else { last[index] }, 0)
        })
        .collect();
    case(scans, vec![(true, 7)], vec![0])
}

// Plans of cost 2^64 - 1, 2^64 and 2^64 + 1, found by a search from the number down to 1.
const COSTS: [&'static str; 3] = [
    "VtAtAtAtAtaoAtaoEtatViEtViAtviEtviAtetvietViatvietVoetviAtAoatet",
    "EtEtAtetaoetetetetAoEtatViEtViAtviEtviAtetvietViatvietVoetviAtAoatet",
    "EtEtAtetetaoetetetetAoEtatViEtViAtviEtviAtetvietViatvietVoetviAtAoatet",
];

fn cases() -> Vec<Case> {
    let mut all = vec![e(0, 0), e(1, 0), e(0, 1), e(1, 1), e(0, 2), e(1, 2)];
    // E reversed; constants and no scans; no slots at all
    all.push(case(vec![(1, 1, 1, 9, 2), (1, 1, 0, 5, 1)], vec![(false, 0), (false, 0), (true, 7)], vec![1]));
    all.push(case(vec![], vec![(true, 7)], vec![0]));
    all.push(case(vec![], vec![], vec![0]));
    // 001's slip at its smallest
    all.push(case(vec![(0, 2, 0, 0, 1)], vec![(true, 7), (true, 8)], vec![0]));
    for n in vec![1, 9, 10, 11, 38, 39, SCANS] {
        all.push(out_out(n));
    }
    // costs of 2^64 - 1 and of 2^64, and of the next above
    for letters in COSTS.iter() {
        all.push(spelt(letters));
    }
    // E damaged: 13, 20 at each count, 21, 22, 23, 24, 25, 26, out-out on one slot
    let change = |f: &Fn(&mut Case)| {
        let mut c = e(0, 0);
        f(&mut c);
        c
    };
    all.push(change(&|c| { c.select.clear(); c.select_count = 0 }));
    for (count, over) in vec![(0, SCANS as u64 + 1), (1, SLOTS as u64 + 1), (2, SELECTS as u64 + 1), (0, u64::max_value()), (1, u64::max_value()), (2, u64::max_value())] {
        all.push(change(&|c| *[&mut c.scan_count, &mut c.slot_count, &mut c.select_count][count] = over));
    }
    all.push(change(&|c| c.scans[0].0 = 2));
    all.push(change(&|c| c.scans[1].4 = 3));
    all.push(change(&|c| c.scans[1].2 = 65535));
    all.push(change(&|c| c.scans[1].1 = 0));
    all.push(change(&|c| c.scans[0].1 = 2));
    all.push(change(&|c| { c.slots.push((false, 0)); c.slot_count = 4 }));
    all.push(change(&|c| c.select[0] = 3));
    all.push(change(&|c| c.scans[0].4 = 0));
    let mut random = Random(20260101);
    for _ in 0..150 {
        all.push(sound(&mut random));
    }
    for _ in 0..350 {
        all.push(damaged(&mut random));
    }
    all
}

// The calls over the plan, and the smaller ones.
fn pair(case: &Case) -> Pair {
    let cases = held::case(PLANS, &numbers(case)) + &held::case(PLAN_PARTS, &numbers(case));
    (cases, format!("{}\n{}\n", answer(case), parts(case)))
}

fn main() {
    std::panic::set_hook(Box::new(|_| {}));
    drive("plans", &|| cases().iter().map(pair).collect(), &|held, random, count| {
        for _ in 0..count {
            held.add(pair(&drawn(random)));
        }
    });
}
