// The differences from 003 that docs/DIFFERENCES.md lists under types, each at its smallest input: what the Rust does and what the proved
// program writes, both run. compare/run SEED COUNT says how it is built.
#[path = "attribute_types.rs"]
mod database;
#[path = "../target/compare/query.rs"]
mod query;

mod capacity;
mod datom;
mod held;
mod query_cases;
mod random;
mod type_cases;

use database::types::Type;
use database::{heap, store, types, View};
use held::{written, TYPES};
use query_cases::{case, Case};
use std::panic::{catch_unwind, AssertUnwindSafe};

// What 003 infers; the variables are x, y and z.
fn by_003(case: &Case, table: &[(u64, u64)]) -> Result<Vec<Type>, String> {
    let mut query = query_cases::query_of(case);
    for (name, letter) in query.variable_names.iter_mut().zip("xyz".chars()) {
        name.push(letter);
    }
    query.infer_types(&View::new(table))
}

// What 003 says where it must panic.
fn panic_of(case: &Case, table: &[(u64, u64)]) -> String {
    let said = catch_unwind(AssertUnwindSafe(|| by_003(case, table))).err().expect("003 does not panic");
    said.downcast_ref::<String>().cloned().unwrap_or_else(|| said.downcast_ref::<&str>().unwrap().to_string())
}

// What `replay` must write: a refusal, and zeros.
fn refused(case: &Case, table: &[u64], number: u64, place: u64) {
    let said = written(&held::case(TYPES, &type_cases::numbers(case, table)));
    assert_eq!(said, type_cases::line(&Err((number, place))));
}

fn main() {
    // Panics are asked for below: nothing of them is to be seen but their text.
    let shown = std::panic::take_hook();
    std::panic::set_hook(Box::new(|_| {}));
    let e = (0, 5, false, 1);
    let one = case(2, &[e], &[0]);
    let missing = panic_of(&one, &[]);
    let unused = case(3, &[e], &[0]);
    let unused_said = panic_of(&unused, &[(5, 1)]);
    let high = case(1, &[e], &[0]);
    let high_said = panic_of(&high, &[(5, 1)]);
    std::panic::set_hook(shown);

    // An attribute that is not there: by the stand-in's choice 003 panics.
    assert_eq!(missing, "No such attribute.");
    refused(&one, &[], 51, 0);
    // A clash: 003 names the variable and not the statement.
    let compared = case(2, &[e, (0, 7, false, 1)], &[0]);
    let said = by_003(&compared, &[(5, 1), (7, 2)]).unwrap_err();
    assert_eq!(said, "Type mismatch for variable 'y': used as Numbered(1) and Numbered(2).");
    refused(&compared, &[5, 1, 7, 2], 52, 1);
    let no_entity = case(2, &[e, (1, 7, true, 0)], &[0]);
    let said = by_003(&no_entity, &[(5, 1), (7, 2)]).unwrap_err();
    assert_eq!(said, "Type mismatch for variable 'y': used as ref and Numbered(1).");
    refused(&no_entity, &[5, 1, 7, 2], 52, 1);
    // What planning refuses: 003 panics at a variable in no statement and at one past the names, and types the rest.
    assert_eq!(unused_said, "A variable did not occur in any statement.");
    refused(&unused, &[5, 1], 15, 2);
    assert_eq!(high_said, "index out of bounds: the len is 1 but the index is 1");
    refused(&high, &[5, 1], 14, 0);
    let alone = case(1, &[(0, 5, false, 0)], &[0]);
    assert_eq!(by_003(&alone, &[(5, 0)]), Ok(vec![Type::Ref]));
    refused(&alone, &[5, 0], 16, 0);
    // A table that is none.
    refused(&one, &[5], 50, 0);
    refused(&one, &[5, 1, 5, 1], 50, 0);
    println!("compare: the differences of types are as docs/DIFFERENCES.md has them");
}
