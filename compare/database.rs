// Stand-ins for noblit's `database`, `heap` and `store`, of which eval.rs wants only these: a view is three sorted vectors, and a range
// of one is found by halves. Values are plain numbers, so that nothing is on a heap.
use datom::{Aid, Datom, Eid, Operation, Tid, Value};
use std::cmp::Ordering;
use std::marker::PhantomData;
use std::slice;

pub mod heap {
    pub trait Heap {}
}

pub mod store {
    pub trait Store {}
}

pub struct Nothing;

impl heap::Heap for Nothing {}

impl store::Store for Nothing {}

// The order of an index. It is written out, since that made 002 faster than tuples or arrays did.
pub trait DatomOrd {
    fn cmp(x: &Datom, y: &Datom) -> Ordering;
}

pub struct Aevt;

pub struct Avet;

pub struct Eavt;

impl DatomOrd for Aevt {
    fn cmp(x: &Datom, y: &Datom) -> Ordering {
        if x.attribute != y.attribute {
            return x.attribute.cmp(&y.attribute);
        }
        if x.entity != y.entity {
            return x.entity.cmp(&y.entity);
        }
        if x.value != y.value {
            return x.value.cmp(&y.value);
        }
        x.transaction_operation.cmp(&y.transaction_operation)
    }
}

impl DatomOrd for Avet {
    fn cmp(x: &Datom, y: &Datom) -> Ordering {
        if x.attribute != y.attribute {
            return x.attribute.cmp(&y.attribute);
        }
        if x.value != y.value {
            return x.value.cmp(&y.value);
        }
        if x.entity != y.entity {
            return x.entity.cmp(&y.entity);
        }
        x.transaction_operation.cmp(&y.transaction_operation)
    }
}

impl DatomOrd for Eavt {
    fn cmp(x: &Datom, y: &Datom) -> Ordering {
        if x.entity != y.entity {
            return x.entity.cmp(&y.entity);
        }
        if x.attribute != y.attribute {
            return x.attribute.cmp(&y.attribute);
        }
        if x.value != y.value {
            return x.value.cmp(&y.value);
        }
        x.transaction_operation.cmp(&y.transaction_operation)
    }
}

// By halves: the first datom that does not come before the key.
fn bound<Order: DatomOrd>(datoms: &[Datom], key: &Datom) -> usize {
    let (mut low, mut high) = (0, datoms.len());
    while low < high {
        let middle = low + (high - low) / 2;
        if Order::cmp(&datoms[middle], key) == Ordering::Less {
            low = middle + 1;
        } else {
            high = middle;
        }
    }
    low
}

pub struct Index<'a, Order> {
    datoms: &'a [Datom],
    order: PhantomData<Order>,
}

impl<'a, Order: DatomOrd> Index<'a, Order> {
    // The datoms from min up to max, which is left out.
    pub fn into_iter(self, min: &Datom, max: &Datom) -> slice::Iter<'a, Datom> {
        let rest = &self.datoms[bound::<Order>(self.datoms, min)..];
        rest[..bound::<Order>(rest, max)].iter()
    }
}

pub struct View<'a, Store: 'a + store::Store, Heap: 'a + heap::Heap> {
    heap: &'a Heap,
    store: PhantomData<&'a Store>,
    aevt: Vec<Datom>,
    avet: Vec<Datom>,
    eavt: Vec<Datom>,
}

// The facts (entity, attribute, value), asserted by one transaction, in the order of an index.
fn sorted<Order: DatomOrd>(facts: &[(u64, u64, u64)], transaction: Tid) -> Vec<Datom> {
    let datom = |f: &(u64, u64, u64)| Datom::new(Eid(f.0), Aid(f.1), Value(f.2), transaction, Operation::Assert);
    let mut datoms: Vec<Datom> = facts.iter().map(datom).collect();
    datoms.sort_by(Order::cmp);
    datoms
}

impl<'a> View<'a, Nothing, Nothing> {
    pub fn new(facts: &[(u64, u64, u64)], transaction: Tid) -> View<'a, Nothing, Nothing> {
        View {
            heap: &Nothing,
            store: PhantomData,
            aevt: sorted::<Aevt>(facts, transaction),
            avet: sorted::<Avet>(facts, transaction),
            eavt: sorted::<Eavt>(facts, transaction),
        }
    }
}

impl<'a, Store: store::Store, Heap: heap::Heap> View<'a, Store, Heap> {
    pub fn heap(&self) -> &Heap {
        self.heap
    }

    pub fn aevt(&self) -> Index<Aevt> {
        Index { datoms: &self.aevt, order: PhantomData }
    }

    pub fn avet(&self) -> Index<Avet> {
        Index { datoms: &self.avet, order: PhantomData }
    }

    pub fn eavt(&self) -> Index<Eavt> {
        Index { datoms: &self.eavt, order: PhantomData }
    }
}

// The three tables as the Rattle takes them: aevt (a, e, v), avet (a, v, e), eavt (e, a, v), sorted, three words a row.
pub fn tables(facts: &[(u64, u64, u64)]) -> [Vec<u64>; 3] {
    let table = |row: &Fn(&(u64, u64, u64)) -> [u64; 3]| {
        let mut rows: Vec<[u64; 3]> = facts.iter().map(row).collect();
        rows.sort();
        rows.concat()
    };
    [table(&|f| [f.1, f.0, f.2]), table(&|f| [f.1, f.2, f.0]), table(&|f| [f.0, f.1, f.2])]
}
