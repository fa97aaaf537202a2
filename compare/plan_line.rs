// A plan of the Rust as a line.
use plan::{Flow, Index, Plan, SlotDefinition};

fn index_number(index: &Index) -> u64 {
    match *index {
        Index::Aevt => 0,
        Index::Avet => 1,
        Index::Eavt => 2,
    }
}

// The indexes of its scans, in one word.
pub fn index_text(plan: &Plan) -> String {
    plan.scans.iter().map(|s| index_number(&s.index).to_string()).collect()
}

pub fn plan_text(plan: &Plan) -> String {
    let mut out = Vec::new();
    for scan in &plan.scans {
        let index = index_number(&scan.index);
        let flow = match scan.flow {
            Flow::OutOut => 0,
            Flow::InOut => 1,
            Flow::InIn => 2,
        };
        out.push(format!("scan {} {} {} {} {}", index, flow, scan.entity.0, scan.attribute.0, scan.value.0));
    }
    for slot in &plan.slots {
        out.push(match slot {
            SlotDefinition::Variable { .. } => "variable".to_string(),
            SlotDefinition::Constant { value } => format!("constant {}", value.0),
        });
    }
    for slot in &plan.select {
        out.push(format!("select {}", slot.0));
    }
    out.join(", ")
}
