//! Shim: an owned single state word, used by `mat_elem::apply`.
use crate::container::word_iters::{Elem, WordIters};
use crate::fermion::mode::Modes;
use crate::fermion::state::cmpnt_list::CmpntList;

impl Elem<CmpntList> {
    pub fn new(modes: Modes) -> Self {
        let mut this = Self(CmpntList::new(modes));
        this.0.push_clear();
        this
    }
}
