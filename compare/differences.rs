// The differences that docs/DIFFERENCES.md lists, each at its smallest input: what the Rust does and what the proved program writes, both
// run. compare/run SEED COUNT says how it is built.
#[path = "../target/compare/eval.rs"]
mod eval;
#[path = "../target/compare/permutation.rs"]
mod permutation;
#[path = "../target/compare/plan.rs"]
mod plan;
#[path = "../target/compare/planner.rs"]
mod planner;

mod capacity;
mod database;
mod datom;
mod held;
mod plan_cases;
mod plan_line;
mod query;
mod query_cases;
mod random;
mod rust_plan;
mod table_cases;

use capacity::{ELEMENTS, SELECTS, SLOTS, STATEMENTS};
use database::{heap, store, tables, View};
use datom::Tid;
use eval::Evaluator;
use held::{written, PLANS, QUERIES, SEARCHES, SWAPS, TABLES, TEXTS};
use permutation::Permutations;
use plan::Plan;
use plan_cases::{case, e, out_out, Case};
use plan_line::{index_text, plan_text};
use planner::Planner;
use rust_plan::rust_plan;
use std::panic::{catch_unwind, AssertUnwindSafe};

const LARGEST: u64 = u64::max_value();

type Fact = (u64, u64, u64);

// What a function that must panic says.
fn panic_of<R>(f: &Fn() -> R) -> String {
    match catch_unwind(AssertUnwindSafe(|| f())) {
        Ok(_) => panic!("the Rust does not panic"),
        Err(said) => match said.downcast_ref::<String>() {
            Some(text) => text.clone(),
            None => said.downcast_ref::<&str>().unwrap().to_string(),
        },
    }
}

fn rust(case: &Case) -> Plan {
    rust_plan(case, &[])
}

// What `replay` writes for a plan.
fn plans(case: &Case) -> String {
    written(&held::case(PLANS, &plan_cases::numbers(case)))
}

fn rows_by_002(plan: &Plan, facts: &[Fact], transaction: Tid) -> Vec<Vec<u64>> {
    let view = View::new(facts, transaction);
    let rows = Evaluator::new(plan, &view).map(|row| row.iter().map(|v| v.0).collect()).collect();
    rows
}

// What `replay` writes for a plan over facts, from row 0, with four words of room.
fn evaluations(case: &Case, facts: &[Fact]) -> String {
    written(&held::case(TABLES, &table_cases::numbers(&tables(facts), &[table_cases::window(&plan_cases::numbers(case), 0, 4)])))
}

// 001 tests a scan's slots against the number of scans: all facts of an attribute; and 01's E.
fn scan_count() {
    let all = case(vec![(0, 0, 0, 5, 1)], vec![(false, 0); 2], vec![0]);
    assert_eq!(panic_of(&|| rust(&all).check_invariants()), "Scan 0 references non-existing slot 1.");
    assert_eq!(plans(&all), "check fine, cost 120, next yes 1\n");
    assert_eq!(panic_of(&|| rust(&e(0, 0)).check_invariants()), "Scan 1 references non-existing slot 2.");
    assert_eq!(plans(&e(0, 0)), "check fine, cost 1120, next yes 10\n");
}

// 002 leaves out the largest datom of a range: with all slots out, with the entity in, with the value in, with both in.
fn largest_datom() {
    let variable = (false, 0);
    let all = case(vec![(0, 0, 0, 5, 1)], vec![variable; 2], vec![0, 1]);
    let of_entity = case(vec![(0, 1, 0, 5, 1)], vec![(true, 1), variable], vec![1]);
    let of_value = case(vec![(1, 1, 0, 5, 1)], vec![variable, (true, 2)], vec![0]);
    // A plan selects a variable: that of a scan before the test.
    let of_both = case(vec![(0, 1, 0, 7, 2), (0, 2, 0, 5, 1)], vec![(true, 1), (true, 2), variable], vec![2]);
    let asked = vec![
        (all.clone(), vec![(LARGEST, 5, LARGEST)], vec![LARGEST, LARGEST]),
        (of_entity.clone(), vec![(1, 5, LARGEST)], vec![LARGEST]),
        (of_value.clone(), vec![(LARGEST, 5, 2)], vec![LARGEST]),
        (of_both, vec![(1, 5, 2), (1, 7, 3)], vec![3]),
    ];
    for (plan, facts, row) in asked {
        assert!(rows_by_002(&rust(&plan), &facts, Tid::max()).is_empty());
        for transaction in vec![Tid::min(), Tid(Tid::max().0 - 2)] {
            assert_eq!(rows_by_002(&rust(&plan), &facts, transaction), vec![row.clone()]);
        }
        let buffer: String = row.iter().chain([77; 4][row.len()..].iter()).map(|w| format!(" {}", w)).collect();
        assert_eq!(evaluations(&plan, &facts), format!("fine, rows 1, none follows, buffer{}\n", buffer));
    }
    // A fact that is not the largest of its range is found.
    for (plan, fact, row) in vec![(all, (1, 5, LARGEST), vec![1, LARGEST]), (of_entity, (1, 5, 2), vec![2]), (of_value, (1, 5, 2), vec![1])] {
        assert_eq!(rows_by_002(&rust(&plan), &[fact], Tid::max()), vec![row]);
    }
}

// `next` of an out-out scan over eavt: alone; behind a scan that steps, where 000 does not come to it.
fn next_of_out_out_eavt() {
    let alone = case(vec![(2, 0, 0, 5, 1)], vec![(false, 0); 2], vec![0]);
    assert_eq!(panic_of(&|| Planner::damaged(rust(&alone)).next()), "Using eavt for out-out is invalid.");
    assert_eq!(plans(&alone), "check refused 21 at 0, cost refused 21 at 0, next refused 21 at 0 2\n");
    let slots = vec![(true, 7), (true, 8), (false, 0), (false, 0)];
    let behind = case(vec![(0, 2, 0, 5, 1), (2, 0, 2, 5, 3)], slots, vec![2]);
    let mut planner = Planner::damaged(rust(&behind));
    assert!(planner.next());
    assert_eq!(index_text(planner.get_plan()), "12");
    assert_eq!(plans(&behind), "check refused 21 at 1, cost refused 21 at 1, next refused 21 at 1 02\n");
    assert_eq!(panic_of(&|| rust(&alone).cost()), "Using eavt for out-out is invalid");
    assert_eq!(panic_of(&|| rust(&alone).scans[0].entity_value_flow()), "Using eavt for out-out is invalid");
}

// A variable number that is not below the count: it names a constant's slot, or none.
fn variable_too_high() {
    let silent = query_cases::case(1, &[(0, 5, false, 1), (0, 9, true, 7)], &[0]);
    let plan = Planner::plan(&query_cases::query_of(&silent));
    assert_eq!(plan_text(&plan), "scan 1 1 0 5 1, scan 0 2 0 9 1, variable, constant 7, select 0");
    assert_eq!(rows_by_002(&plan, &[(3, 5, 7), (3, 9, 7)], Tid::min()), vec![vec![3]]);
    assert_eq!(written(&held::case(QUERIES, &query_cases::numbers(&silent))), "refused 14 at 0\n");
    let alone = query_cases::case(1, &[(0, 5, false, 1)], &[0]);
    let said = panic_of(&|| Planner::plan(&query_cases::query_of(&alone)));
    assert_eq!(said, "index out of bounds: the len is 1 but the index is 1");
    assert_eq!(written(&held::case(QUERIES, &query_cases::numbers(&alone))), "refused 14 at 0\n");
}

// Both slots of an out-out scan on one slot: only the value is kept, and a row stands for no fact (x, 5, x).
fn both_on_one_slot() {
    let alone = query_cases::case(1, &[(0, 5, false, 0)], &[0]);
    let plan = Planner::plan(&query_cases::query_of(&alone));
    assert_eq!(plan_text(&plan), "scan 0 0 0 5 0, variable, select 0");
    assert_eq!(rows_by_002(&plan, &[(1, 5, 2)], Tid::min()), vec![vec![2]]);
    let numbers = query_cases::numbers(&alone);
    assert_eq!(written(&held::case(QUERIES, &numbers)), "refused 16 at 0\n");
    assert_eq!(written(&held::case(SEARCHES, &numbers)), "refused 18 at 0, order 0 0 0 0 0 0, cost 0, \n");
    let plan = case(vec![(0, 0, 0, 5, 0)], vec![(false, 0)], vec![0]);
    assert!(panic_of(&|| rust(&plan).check_invariants()).contains("Scan 0 writes to slot 0, which is already initialized by Scan(0)."));
    assert_eq!(plans(&plan), "check refused 23 at 0, cost 120, next yes 1\n");
    let refused = "refused 23 at 0, rows 0, none follows, buffer 77 77 77 77\n";
    assert_eq!(evaluations(&plan, &[(1, 5, 2)]), refused);
}

// What 000 plans and 01 refuses, and where it panics.
fn planned_by_000() {
    let e0 = (0, 5, false, 1);
    let refused = vec![
        (10, query_cases::chain(STATEMENTS + 1, 0)),
        (11, query_cases::case(SLOTS as u64 + 1, &[e0], &[0])),
        (12, query_cases::case(2, &[e0], &[0; SELECTS + 1])),
        (13, query_cases::case(2, &[e0], &[])),
        (15, query_cases::case(3, &[e0], &[0])),
    ];
    for (number, case) in refused {
        assert_eq!(Planner::plan(&query_cases::query_of(&case)).scans.len(), case.statements.len());
        assert!(written(&held::case(QUERIES, &query_cases::numbers(&case))).starts_with(&format!("refused {} at ", number)));
    }
    let many = query_cases::case(65536, &[e0], &[0]);
    assert_eq!(panic_of(&|| Planner::plan(&query_cases::query_of(&many))), "Can have at most 2^16 slots, slot index is u16.");
    assert_eq!(written(&held::case(QUERIES, &query_cases::numbers(&many))), "refused 11 at 0\n");
}

// The rest: a cost past 2^64 - 1 wraps (01's nine scans, and one more).
fn the_rest() {
    assert_eq!(Permutations::new(ELEMENTS + 1).next(), Some((0, 1)));
    let order: String = (0..ELEMENTS).map(|i| (b'a' + (i % 26) as u8) as char).collect();
    assert_eq!(written(&held::case(SWAPS, &format!("0 {} 1", ELEMENTS + 1))).lines().last(), Some(&format!("none {}", order)[..]));
    let ten = out_out(10);
    let cost: u128 = 20 + 100 * (1050505050505050520 - 20 + 5);
    assert_eq!(rust(&ten).cost(), cost as u64);
    assert_eq!(plans(&ten), "check fine, cost refused 27 at 0, next yes 1000000000\n");
}

// A selected constant: 001 takes it and only its name panics; 002 yields it, or panics for want of a scan.
fn selected_constant() {
    let none = case(vec![], vec![(true, 7)], vec![0]);
    rust(&none).check_invariants();
    assert_eq!(panic_of(&|| rust(&none).get_select_name(0).len()), "Constants cannot be selected.");
    assert!(panic_of(&|| rows_by_002(&rust(&none), &[], Tid::min())).starts_with("index out of bounds"));
    assert_eq!(plans(&none), "check refused 29 at 0, cost 1, next no \n");
    let refused = "refused 29 at 0, rows 0, none follows, buffer 77 77 77 77\n";
    assert_eq!(evaluations(&none, &[]), refused);
    let shown = written(&held::case(TEXTS, &format!("{} 0 1 0 0 1 20 0", plan_cases::numbers(&none))));
    assert_eq!(shown, "name refused 29 at 0 []\ntext refused 29 at 0, length 0 [~~~~~~~~~~~~~~~~~~~~]\n");
    let scanned = case(vec![(1, 1, 0, 5, 1)], vec![(false, 0), (true, 7)], vec![1]);
    assert_eq!(rows_by_002(&rust(&scanned), &[(3, 5, 7)], Tid::min()), vec![vec![7]]);
    assert_eq!(evaluations(&scanned, &[(3, 5, 7)]), refused);
}

// A constant's line is as compare/printed.rs has it of the Rust, but for the constant.
fn constant_in_decimal() {
    let plan = case(vec![(1, 1, 0, 5, 1)], vec![(false, 0), (true, 7)], vec![0]);
    let shown = written(&held::case(TEXTS, &format!("{} 1 120 2 1 1 0 1 60 0", plan_cases::numbers(&plan))));
    assert_eq!(shown, "name fine [x]\ntext fine, length 59 [let :1 = 7\nfor x:0 in avet attribute 5 (value=:1)\nyield x:0~]\n");
}

// The text that `replay` writes of a plan, with these names.
fn text_with(case: &Case, names: &[&str]) -> String {
    let bytes: Vec<String> = names.concat().bytes().map(|b| b.to_string()).collect();
    let mut end = 0;
    let mut ends = Vec::new();
    for name in names {
        end += name.len();
        ends.push(end.to_string());
    }
    let numbers = format!("{} {} {} {} {} 0 1 60 0", plan_cases::numbers(case), bytes.len(), bytes.join(" "), ends.len(), ends.join(" "));
    let shown = written(&held::case(TEXTS, &numbers));
    shown[shown.find("[").unwrap() + 1..].split("[").last().unwrap().trim_right_matches(|c| c == '~' || c == ']' || c == '\n').to_string()
}

// 001 prints two plans alike, and names as they are.
fn told_apart() {
    let scanned = |attribute| case(vec![(0, 0, 0, attribute, 1)], vec![(false, 0); 2], vec![0]);
    let by_001 = |plan: &Case, names: [&str; 2]| format!("{:?}", rust_plan(plan, &[names[0].to_string(), names[1].to_string()]));
    assert_eq!(by_001(&scanned(5), ["", ""]), "for :0, :1 in aevt\nyield :0");
    assert_eq!(by_001(&scanned(6), ["", ""]), "for :0, :1 in aevt\nyield :0");
    assert_eq!(text_with(&scanned(5), &["", ""]), "for :0, :1 in aevt attribute 5\nyield :0");
    assert_eq!(text_with(&scanned(6), &["", ""]), "for :0, :1 in aevt attribute 6\nyield :0");
    assert_eq!(by_001(&scanned(5), [":,", "b"]), "for :,:0, b:1 in aevt\nyield :,:0");
    assert_eq!(text_with(&scanned(5), &[":,", "b"]), "for \\3a\\2c:0, b:1 in aevt attribute 5\nyield \\3a\\2c:0");
}

fn main() {
    // Panics are asked for above: nothing of them is to be seen but their text.
    std::panic::set_hook(Box::new(|_| {}));
    let all: [(&str, fn()); 10] = [
        ("the scan-count test", scan_count),
        ("the largest datom", largest_datom),
        ("next of an out-out eavt scan", next_of_out_out_eavt),
        ("a variable at or above the count", variable_too_high),
        ("both slots of a scan on one slot", both_on_one_slot),
        ("what 000 plans", planned_by_000),
        ("a selected constant", selected_constant),
        ("a constant's print", constant_in_decimal),
        ("attributes and names in the text", told_apart),
        ("the rest", the_rest),
    ];
    for &(name, difference) in all.iter() {
        if let Err(said) = catch_unwind(difference) {
            println!("compare: {} is not as docs/DIFFERENCES.md has it: {:?}", name, said.downcast_ref::<String>());
            std::process::exit(1);
        }
    }
    println!("compare: the differences are as docs/DIFFERENCES.md has them");
}
