// A stand-in for noblit's `datom`: what plan.rs, planner.rs and eval.rs want of it. Entities, attributes and values are plain numbers.
#[derive(Copy, Clone, Debug, Eq, Hash, Ord, PartialEq, PartialOrd)]
pub struct Aid(pub u64);

#[derive(Copy, Clone, Debug, Eq, Ord, PartialEq, PartialOrd)]
pub struct Eid(pub u64);

#[derive(Copy, Clone, Eq, Ord, PartialEq, PartialOrd)]
pub struct Value(pub u64);

// Constants print in decimal, as document 01 has it.
impl ::std::fmt::Debug for Value {
    fn fmt(&self, f: &mut ::std::fmt::Formatter) -> ::std::fmt::Result {
        write!(f, "{}", self.0)
    }
}

// A transaction; its lowest bit is kept for the operation.
#[derive(Copy, Clone)]
pub struct Tid(pub u64);

#[derive(Copy, Clone)]
pub enum Operation {
    Retract = 0,
    Assert = 1,
}

// A fact, and the transaction and operation that made it, which order equal facts.
pub struct Datom {
    pub entity: Eid,
    pub attribute: Aid,
    pub value: Value,
    pub transaction_operation: u64,
}

impl Datom {
    pub fn new(entity: Eid, attribute: Aid, value: Value, transaction: Tid, operation: Operation) -> Datom {
        Datom {
            entity: entity,
            attribute: attribute,
            value: value,
            transaction_operation: transaction.0 | operation as u64,
        }
    }
}

impl Eid {
    pub fn min() -> Eid {
        Eid(0)
    }

    pub fn max() -> Eid {
        Eid(u64::max_value())
    }
}

impl Value {
    pub fn min() -> Value {
        Value(0)
    }

    pub fn max() -> Value {
        Value(u64::max_value())
    }

    pub fn from_eid(entity: Eid) -> Value {
        Value(entity.0)
    }

    pub fn as_eid<Heap>(&self, _heap: &Heap) -> Eid {
        Eid(self.0)
    }
}

impl Tid {
    pub fn min() -> Tid {
        Tid(0)
    }

    pub fn max() -> Tid {
        Tid(u64::max_value() - 1)
    }
}
