//! Shim: sets of state terms, as far as `mat_elem.rs` names them.
use crate::container::word_iters::term_set;
use crate::fermion::state::cmpnt_list::CmpntList;

pub type View<'a, C> = term_set::View<'a, CmpntList, C>;
pub type ViewMut<'a, C> = term_set::ViewMut<'a, CmpntList, C>;
