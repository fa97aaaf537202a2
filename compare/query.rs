// A stand-in for noblit's `query`: the types that planner.rs uses, as they stand there.
use datom::{Aid, Value};
#[derive(Copy, Clone, Debug, Eq, PartialEq)]
pub struct Var(pub u16);
#[derive(Clone, Debug)]
pub enum QueryAttribute {
    Named(()),
    Fixed(Aid),
}
#[derive(Clone, Debug)]
pub enum QueryValue {
    Const(Value),
    Var(Var),
}
#[derive(Clone, Debug)]
pub struct Statement {
    pub entity: Var,
    pub attribute: QueryAttribute,
    pub value: QueryValue,
}
pub struct Query {
    pub variable_names: Vec<String>,
    pub where_statements: Vec<Statement>,
    pub select: Vec<Var>,
}
