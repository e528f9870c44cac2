//! Values as the storage holds them.

use crate::Address;
use std::collections::BTreeMap;
use std::rc::Rc;

/// A short name of the module's own, or the number of an offer or an invoice.
#[derive(Clone, Debug, PartialEq, Eq, PartialOrd, Ord)]
pub enum Symbol {
    Short(&'static str),
    Number(u64),
}

#[derive(Clone, Debug, PartialEq, Eq)]
pub struct String(pub std::string::String);

#[derive(Clone, Debug, PartialEq, Eq)]
pub struct BytesN<const N: usize>(pub [u8; N]);

/// The order of values is the order in which a map is walked: numbers rise, and fields compare one after another.
#[derive(Clone, Debug, PartialEq, Eq, PartialOrd, Ord)]
pub enum Val {
    Bool(bool),
    U32(u32),
    U64(u64),
    I128(i128),
    Symbol(Symbol),
    Address(Address),
    Fields(Vec<Val>),
    Map(Rc<BTreeMap<Val, Val>>),
}

impl Val {
    pub fn fields(&self) -> &[Val] {
        match self {
            Val::Fields(fields) => fields,
            other => panic!("not a list of fields: {other:?}"),
        }
    }
}

/// A type that can be put into the storage and got back.
pub trait Stored {
    fn store(&self) -> Val;
    fn load(value: &Val) -> Self;
}

macro_rules! stored {
    ($($kind:ident: $type:ty),*) => {$(
        impl Stored for $type {
            fn store(&self) -> Val {
                Val::$kind(self.clone())
            }

            fn load(value: &Val) -> Self {
                match value {
                    Val::$kind(inner) => inner.clone(),
                    other => panic!("not of kind {}: {other:?}", stringify!($kind)),
                }
            }
        }
    )*};
}

stored!(Bool: bool, U32: u32, U64: u64, I128: i128, Symbol: Symbol, Address: Address);
