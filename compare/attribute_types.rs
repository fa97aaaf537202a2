// Stand-ins for noblit's `database`, `heap`, `store` and `types`, of which query.rs wants only these: a view is the types of attributes. A
// type is a reference, or one of which only its number is known.
use datom::Aid;
use std::marker::PhantomData;

pub mod heap {
    pub trait Heap {}

    // The name of an attribute: no query here names one.
    #[derive(Copy, Clone, Debug)]
    pub struct CidBytes;
}

pub mod store {
    pub trait Store {}
}

pub mod types {
    #[derive(Copy, Clone, Debug, Eq, PartialEq)]
    pub enum Type {
        Ref,
        Numbered(u64),
    }

    // Type 0 means reference.
    impl Type {
        pub fn of_number(number: u64) -> Type {
            if number == 0 {
                Type::Ref
            } else {
                Type::Numbered(number)
            }
        }

        pub fn number(&self) -> u64 {
            match *self {
                Type::Ref => 0,
                Type::Numbered(number) => number,
            }
        }
    }
}

pub struct Nothing;

impl heap::Heap for Nothing {}

impl store::Store for Nothing {}

pub struct View<Store: store::Store, Heap: heap::Heap> {
    types: Vec<(u64, u64)>,
    of: PhantomData<(Store, Heap)>,
}

impl View<Nothing, Nothing> {
    // Each attribute with its type.
    pub fn new(types: &[(u64, u64)]) -> View<Nothing, Nothing> {
        View { types: types.to_vec(), of: PhantomData }
    }
}

impl<Store: store::Store, Heap: heap::Heap> View<Store, Heap> {
    pub fn lookup_attribute_id(&self, _name: heap::CidBytes) -> Result<Aid, &'static str> {
        Err("no attribute has a name here")
    }

    // What noblit's own does if there is no such attribute, docs/src does not say.
    pub fn lookup_attribute_type(&self, attribute: Aid) -> types::Type {
        let row = self.types.iter().find(|row| row.0 == attribute.0).expect("No such attribute.");
        types::Type::of_number(row.1)
    }
}
