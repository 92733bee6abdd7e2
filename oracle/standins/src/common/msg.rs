//! Stands in for `common/msg.rs`: messages go nowhere.

pub struct MsgCore;

impl MsgCore {
    pub fn msg(&self, _text: String) {}
}
