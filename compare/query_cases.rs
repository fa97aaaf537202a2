// Queries for drawn and made cases, as the numbers that the Rattle reads, and what planning refuses, read off document 01's table
// independently of the Rattle.
use capacity::{SELECTS, STATEMENTS};
use datom::{Aid, Value};
use query::{Query, QueryAttribute, QueryValue, Statement, Var};
use random::Random;

const SLOTS: u64 = ::capacity::SLOTS as u64;

// A query as the Rattle has it. A statement is (entity, attribute, is constant, variable or constant).
#[derive(Clone)]
pub struct Case {
    pub variables: u64,
    pub statements: Vec<(u16, u64, bool, u64)>,
    pub select: Vec<u16>,
}

// 01's table, 10 to 15 ascending, within a number the lowest place.
pub fn query_refusal(case: &Case) -> Option<(u64, u64)> {
    let constants = case.statements.iter().filter(|s| s.2).count() as u64;
    if case.statements.len() > STATEMENTS {
        return Some((10, 0));
    }
    if case.variables > SLOTS || case.variables + constants > SLOTS {
        return Some((11, 0));
    }
    if case.select.len() > SELECTS {
        return Some((12, 0));
    }
    if case.select.is_empty() {
        return Some((13, 0));
    }
    let high = |v: u64| v >= case.variables;
    let at = case.statements.iter().position(|s| high(s.0 as u64) || (!s.2 && high(s.3)));
    let selected = case.select.iter().position(|v| high(*v as u64)).map(|i| i + case.statements.len());
    if let Some(i) = at.or(selected) {
        return Some((14, i as u64));
    }
    for v in 0..case.variables {
        if !case.statements.iter().any(|s| names(s, v)) {
            return Some((15, v));
        }
    }
    None
}

fn names(s: &(u16, u64, bool, u64), v: u64) -> bool {
    s.0 as u64 == v || (!s.2 && s.3 == v)
}

// The first statement, if there is one, whose entity and value are one variable that is new there.
pub fn bound_twice(statements: &[(u16, u64, bool, u64)]) -> Option<usize> {
    (0..statements.len()).find(|&i| {
        let s = statements[i];
        let entity = s.0 as u64;
        !s.2 && s.3 == entity && !statements[..i].iter().any(|b| names(b, entity))
    })
}

// 01's table, planning: 10 to 15, then 16 in the given order.
pub fn refusal(case: &Case) -> Option<(u64, u64)> {
    query_refusal(case).or(bound_twice(&case.statements).map(|i| (16, i as u64)))
}

// The query as 000 takes it.
pub fn query_of(case: &Case) -> Query {
    Query {
        variable_names: (0..case.variables).map(|_| String::new()).collect(),
        where_statements: case
            .statements
            .iter()
            .map(|s| Statement {
                entity: Var(s.0),
                attribute: QueryAttribute::Fixed(Aid(s.1)),
                value: if s.2 { QueryValue::Const(Value(s.3)) } else { QueryValue::Var(Var(s.3 as u16)) },
            })
            .collect(),
        select: case.select.iter().map(|v| Var(*v)).collect(),
    }
}

// The query as the Rattle reads it.
pub fn numbers(case: &Case) -> String {
    let mut out = vec![case.variables, case.statements.len() as u64, case.select.len() as u64];
    for s in &case.statements {
        out.extend([s.0 as u64, s.1, s.2 as u64, s.3].iter());
    }
    out.extend(case.select.iter().map(|v| *v as u64));
    out.iter().map(|n| n.to_string()).collect::<Vec<_>>().join(" ")
}

pub fn case(variables: u64, statements: &[(u16, u64, bool, u64)], select: &[u16]) -> Case {
    Case { variables: variables, statements: statements.to_vec(), select: select.to_vec() }
}

pub fn random(random: &mut Random) -> Case {
    let variables = 1 + random.below(4);
    let high = if random.below(8) == 0 { variables + 1 } else { variables };
    let n = if random.below(20) == 0 { 0 } else { variables + random.below(3) };
    let statements = (0..n)
        .map(|_| {
            let constant = random.below(3) == 0;
            (random.below(high) as u16, random.below(3), constant, if constant { random.below(9) } else { random.below(high) })
        })
        .collect();
    let selects = if random.below(20) == 0 { 0 } else { 1 + random.below(3) };
    let select = (0..selects).map(|_| random.below(high) as u16).collect();
    Case { variables: variables, statements: statements, select: select }
}

// A chain of n statements, each from variable i to i + 1, and m constants on variable 0 after them.
pub fn chain(n: usize, m: usize) -> Case {
    let mut statements: Vec<_> = (0..n).map(|i| (i as u16, i as u64 % 3, false, i as u64 + 1)).collect();
    statements.extend((0..m).map(|i| (0, 7, true, i as u64)));
    Case { variables: n as u64 + 1, statements: statements, select: vec![0] }
}

// A query that planning takes, of up to six statements over few variables, so that most scans are in-in and the plans are many.
pub fn dense(random: &mut Random) -> Case {
    loop {
        let variables = 2 + random.below(2);
        let statements = (0..1 + random.below(6))
            .map(|_| (random.below(variables) as u16, random.below(3), random.below(6) == 0, random.below(variables)))
            .collect();
        let select = (0..1 + random.below(2)).map(|_| random.below(variables) as u16).collect();
        let case = Case { variables: variables, statements: statements, select: select };
        if refusal(&case).is_none() {
            return case;
        }
    }
}

// A query of numbers at the ends of what they can be.
fn wild(random: &mut Random) -> Case {
    let variables = [0, 1, 2, 3, 3, 3, 3, SLOTS, SLOTS + 1, 65535, 65536, u64::max_value()][random.below(12) as usize];
    let variable = |random: &mut Random| [0, 1, 2, 0, 1, 2, 0, 3, SLOTS as u16 - 1, SLOTS as u16, 65535][random.below(11) as usize];
    let number = |random: &mut Random| [0, 1, u64::max_value()][random.below(3) as usize];
    let statements = (0..random.below(7))
        .map(|_| {
            let constant = random.below(3) == 0;
            (variable(random), number(random), constant, if constant { number(random) } else { variable(random) as u64 })
        })
        .collect();
    let select = (0..random.below(4)).map(|_| random.below(3) as u16).collect();
    Case { variables: variables, statements: statements, select: select }
}

// A query around the capacities: each variable is named, and statements, slots and selects are some below, at, or above what fits.
fn full(random: &mut Random) -> Case {
    let n = STATEMENTS as u64 - 2 + random.below(4);
    let variables = n + 1 - random.below(3);
    let constants = SLOTS - variables - 2 + random.below(4);
    let statements = (0..n)
        .map(|i| (i as u16 % variables as u16, random.below(4), i < constants, random.below(variables)))
        .collect();
    let selects = [1, 2, SELECTS - 1, SELECTS, SELECTS + 1][random.below(5) as usize];
    Case { variables: variables, statements: statements, select: (0..selects).map(|_| random.below(variables) as u16).collect() }
}

// A query of any of these kinds.
pub fn drawn(source: &mut Random) -> Case {
    match source.below(100) {
        0 | 1 => full(source),
        2...15 => wild(source),
        16...19 => dense(source),
        _ => random(source),
    }
}
