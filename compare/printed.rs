// What 001 prints for a constant is what its `Value` prints, which is not among the sources at hand. With a stand-in whose `Debug` is
// derived, as Rust derives it, the constants are no decimal numbers. compare/run SEED COUNT says how it is built.
#[path = "../target/compare/plan.rs"]
mod plan;

mod datom {
    #[derive(Copy, Clone, Debug, Eq, Hash, Ord, PartialEq, PartialOrd)]
    pub struct Aid(pub u64);

    #[derive(Copy, Clone, Debug, Eq, Ord, PartialEq, PartialOrd)]
    pub struct Value(pub u64);
}

use datom::{Aid, Value};
use plan::{Flow, Index, Plan, Scan, Slot, SlotDefinition};

fn main() {
    let scan = Scan { index: Index::Avet, flow: Flow::InOut, entity: Slot(0), attribute: Aid(5), value: Slot(1) };
    let slots = vec![SlotDefinition::Variable { name: "x".to_string() }, SlotDefinition::Constant { value: Value(7) }];
    let plan = Plan { scans: vec![scan], slots: slots, select: vec![Slot(0)] };
    assert_eq!(format!("{:?}", plan), "let :1 = Value(7)\nfor x:0 in avet (value=:1)\nyield x:0");
}
