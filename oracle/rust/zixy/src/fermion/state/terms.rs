//! Shim: states with coefficients, as far as `mat_elem.rs` names them.
use crate::container::coeffs::traits::NumRepr;
use crate::container::traits::EmptyFrom;
use crate::container::word_iters::terms;
use crate::fermion::mode::Modes;
use crate::fermion::state::cmpnt_list::CmpntList;
use crate::fermion::traits::ModesBased;

pub type Terms<C> = terms::Terms<CmpntList, C>;
pub type View<'a, C> = terms::View<'a, CmpntList, C>;

pub trait AsView<C: NumRepr>: terms::AsView<CmpntList, C> {}
impl<C: NumRepr> AsView<C> for Terms<C> {}
impl<'a, C: NumRepr> AsView<C> for View<'a, C> {}

impl<C: NumRepr> Terms<C> {
    pub fn new(modes: Modes) -> Self {
        Self::empty_from(&CmpntList::new(modes))
    }
}

impl<'a, C: NumRepr> ModesBased for View<'a, C> {
    fn modes(&self) -> &Modes {
        self.word_iters.modes()
    }
}
