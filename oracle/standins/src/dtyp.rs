//! Stands in for `dtyp.rs`: datatypes are left out, so none exists.

use crate::common::*;

pub struct RDTyp {
    pub name: String,
    pub news: BTreeMap<String, Vec<(String, PartialTyp)>>,
}
pub type DTyp = Arc<RDTyp>;

pub enum PartialTyp {}

impl PartialTyp {
    pub fn to_type(&self, _params: Option<&Vec<Typ>>) -> Result<Typ, String> {
        match *self {}
    }
}
