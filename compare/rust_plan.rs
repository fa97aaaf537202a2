// A case's plan as 001 has it, with the names of its slots.
use datom::{Aid, Value};
use plan::{Flow, Index, Plan, Scan, Slot, SlotDefinition};
use plan_cases::Case;

pub fn rust_plan(case: &Case, names: &[String]) -> Plan {
    Plan {
        scans: case
            .scans
            .iter()
            .map(|s| Scan {
                index: [Index::Aevt, Index::Avet, Index::Eavt][s.0].clone(),
                flow: [Flow::OutOut, Flow::InOut, Flow::InIn][s.1].clone(),
                entity: Slot(s.2),
                attribute: Aid(s.3),
                value: Slot(s.4),
            })
            .collect(),
        slots: case
            .slots
            .iter()
            .enumerate()
            .map(|(i, s)| {
                if s.0 {
                    SlotDefinition::Constant { value: Value(s.1) }
                } else {
                    SlotDefinition::Variable { name: names.get(i).cloned().unwrap_or_default() }
                }
            })
            .collect(),
        select: case.select.iter().map(|s| Slot(*s)).collect(),
    }
}
