//! Stands in for `term/typ.rs`: the sorts integer and truth value (reals exist by name only).

use crate::common::*;
use hashconsing::HConsed;

hashconsing::consign! {
    let factory = consign(3) for RTyp ;
}

#[derive(Clone, Debug, PartialEq, Eq, Hash)]
pub enum RTyp {
    Int,
    Real,
    Bool,
}
pub type Typ = HConsed<RTyp>;

pub fn int() -> Typ {
    factory.mk(RTyp::Int)
}
pub fn real() -> Typ {
    factory.mk(RTyp::Real)
}
pub fn bool() -> Typ {
    factory.mk(RTyp::Bool)
}
pub fn array(_index: Typ, _value: Typ) -> Typ {
    unreachable!("arrays are left out")
}

impl RTyp {
    pub fn is_int(&self) -> bool {
        *self == RTyp::Int
    }
    pub fn is_real(&self) -> bool {
        *self == RTyp::Real
    }
    pub fn is_bool(&self) -> bool {
        *self == RTyp::Bool
    }
    pub fn is_arith(&self) -> bool {
        !self.is_bool()
    }
    pub fn is_dtyp(&self) -> bool {
        false
    }
    pub fn is_array(&self) -> bool {
        false
    }
    pub fn has_unk(&self) -> bool {
        false
    }
    pub fn is_compatible(&self, other: &RTyp) -> bool {
        self == other
    }
    pub fn merge(&self, other: &Typ) -> Option<Typ> {
        Some(other.clone()).filter(|typ| self == typ.get())
    }
    pub fn array_inspect(&self) -> Option<(&Typ, &Typ)> {
        None
    }
    pub fn dtyp_inspect(&self) -> Option<(&DTyp, &Vec<Typ>)> {
        None
    }
    pub fn default_val(&self) -> Val {
        match self {
            RTyp::Int => val::int(0),
            RTyp::Real => val::real_of(0.0),
            RTyp::Bool => val::bool(false),
        }
    }
}

impl fmt::Display for RTyp {
    fn fmt(&self, f: &mut fmt::Formatter) -> fmt::Result {
        let name = match self {
            RTyp::Int => "Int",
            RTyp::Real => "Real",
            RTyp::Bool => "Bool",
        };
        name.fmt(f)
    }
}
