//! Shim: lists of elements made of u64 words, and handles to one element. zixy's own file is not
//! among the 37; this one was written from the uses in them. `mul_cmpnts` reads and writes its rows
//! through it, so nothing here allocates that need not.
use crate::container::traits::{
    Compatible, Elements, EmptyClone, HasIndex, MutRefElements, RefElements,
};
use std::collections::HashSet;
use std::fmt::Display;
use std::hash::{DefaultHasher, Hasher};

pub mod test_defs {}

pub trait WordIters: Elements + EmptyClone + Compatible + Sized {
    fn elem_u64it(&self, i: usize) -> impl Iterator<Item = u64> + Clone;
    fn elem_u64it_mut(&mut self, i: usize) -> impl Iterator<Item = &mut u64>;
    fn u64it_size(&self) -> usize;
    fn pop_and_swap(&mut self, i_row: usize);
    fn fmt_elem(&self, i: usize) -> String;
    fn resize(&mut self, n: usize);

    fn hash_u64it(&self, it: impl Iterator<Item = u64>) -> u64 {
        let mut h = DefaultHasher::new();
        it.for_each(|w| h.write_u64(w));
        h.finish()
    }
    fn hash_at_index(&self, i: usize) -> u64 {
        self.hash_u64it(self.elem_u64it(i))
    }
    fn assign_u64it(&mut self, i: usize, it: impl Iterator<Item = u64>) {
        self.elem_u64it_mut(i).zip(it).for_each(|(d, s)| *d = s);
    }
    fn push_clear(&mut self) {
        self.resize(self.len() + 1);
    }
    fn push_u64it(&mut self, it: impl Iterator<Item = u64>) {
        let i = self.len();
        self.push_clear();
        self.assign_u64it(i, it);
    }
    fn clear(&mut self) {
        self.resize(0);
    }
    fn clear_elem(&mut self, i: usize) {
        self.elem_u64it_mut(i).for_each(|d| *d = 0);
    }
    fn copy(&mut self, i_dst: usize, i_src: usize) {
        for j in 0..self.u64it_size() {
            let word = self.elem_u64it(i_src).nth(j);
            if let (Some(to), Some(word)) = (self.elem_u64it_mut(i_dst).nth(j), word) {
                *to = word;
            }
        }
    }
    fn swap(&mut self, i: usize, j: usize) {
        let a: Vec<u64> = self.elem_u64it(i).collect();
        self.copy(i, j);
        self.assign_u64it(j, a.into_iter());
    }
    fn eq(&self, other: &Self) -> bool {
        self.compatible_with(other)
            && self.len() == other.len()
            && (0..self.len()).all(|i| self.elem_u64it(i).eq(other.elem_u64it(i)))
    }
    fn elem_hamming_weight(&self, i: usize) -> usize {
        self.elem_u64it(i).map(|w| w.count_ones() as usize).sum()
    }
    fn bipartition(&self, inds: impl Iterator<Item = usize>) -> (Self, Self) {
        let inds: HashSet<usize> = inds.collect();
        let mut out = (self.empty_clone(), self.empty_clone());
        for i in 0..self.len() {
            let dst = if inds.contains(&i) {
                &mut out.0
            } else {
                &mut out.1
            };
            dst.push_u64it(self.elem_u64it(i));
        }
        out
    }
    fn select(&self, inds: impl Iterator<Item = usize>) -> Self {
        let mut out = self.empty_clone();
        for i in inds.filter(|i| *i < self.len()) {
            out.push_u64it(self.elem_u64it(i));
        }
        out
    }
    fn deselect(&self, inds: impl Iterator<Item = usize>) -> Self {
        self.bipartition(inds).1
    }
    /// Indices of elements equal to an earlier one.
    fn find_duplicates(&self) -> impl Iterator<Item = usize> {
        let mut seen: HashSet<Vec<u64>> = HashSet::new();
        let mut out = vec![];
        for i in 0..self.len() {
            if !seen.insert(self.elem_u64it(i).collect()) {
                out.push(i);
            }
        }
        out.into_iter()
    }
}

/// Owned single element.
#[derive(Clone)]
pub struct Elem<T: WordIters>(pub T);

impl<T: WordIters> Elem<T> {
    pub fn borrow(&self) -> ElemRef<'_, T> {
        ElemRef {
            word_iters: &self.0,
            index: 0,
        }
    }
    pub fn borrow_mut(&mut self) -> ElemMutRef<'_, T> {
        ElemMutRef {
            word_iters: &mut self.0,
            index: 0,
        }
    }
}
impl<T: WordIters> From<&T> for Elem<T> {
    fn from(value: &T) -> Self {
        let mut this = Self(value.empty_clone());
        this.0.push_clear();
        this
    }
}

pub struct ElemRef<'a, T: WordIters> {
    pub word_iters: &'a T,
    pub index: usize,
}
impl<'a, T: WordIters> Clone for ElemRef<'a, T> {
    fn clone(&self) -> Self {
        Self {
            word_iters: self.word_iters,
            index: self.index,
        }
    }
}
impl<'a, T: WordIters> ElemRef<'a, T> {
    pub fn get_u64it(&self) -> impl Iterator<Item = u64> + Clone + use<'a, '_, T> {
        self.word_iters.elem_u64it(self.index)
    }
    pub fn hash(&self) -> u64 {
        self.word_iters.hash_at_index(self.index)
    }
    pub fn hamming_weight(&self) -> usize {
        self.word_iters.elem_hamming_weight(self.index)
    }
}
impl<'a, T: WordIters> HasIndex for ElemRef<'a, T> {
    fn get_index(&self) -> usize {
        self.index
    }
}
impl<'a, T: WordIters> PartialEq for ElemRef<'a, T> {
    fn eq(&self, other: &Self) -> bool {
        self.word_iters.compatible_with(other.word_iters) && self.get_u64it().eq(other.get_u64it())
    }
}
impl<'a, T: WordIters> Display for ElemRef<'a, T> {
    fn fmt(&self, f: &mut std::fmt::Formatter<'_>) -> std::fmt::Result {
        write!(f, "{}", self.word_iters.fmt_elem(self.index))
    }
}

pub struct ElemMutRef<'a, T: WordIters> {
    pub word_iters: &'a mut T,
    pub index: usize,
}
impl<'a, T: WordIters> ElemMutRef<'a, T> {
    pub fn as_ref(&self) -> ElemRef<'_, T> {
        ElemRef {
            word_iters: self.word_iters,
            index: self.index,
        }
    }
    pub fn get_u64it_mut(&mut self) -> impl Iterator<Item = &mut u64> {
        self.word_iters.elem_u64it_mut(self.index)
    }
    pub fn assign(&mut self, other: ElemRef<T>) {
        self.word_iters.assign_u64it(self.index, other.get_u64it());
    }
    pub fn clear(&mut self) {
        self.word_iters.clear_elem(self.index);
    }
}
impl<'a, T: WordIters> HasIndex for ElemMutRef<'a, T> {
    fn get_index(&self) -> usize {
        self.index
    }
}

impl<'a, T: WordIters + 'a> RefElements<'a> for T {
    type Output = ElemRef<'a, T>;
    fn get_elem_ref(&'a self, index: usize) -> ElemRef<'a, T> {
        ElemRef {
            word_iters: self,
            index,
        }
    }
}
impl<'a, T: WordIters + 'a> MutRefElements<'a> for T {
    type Output = ElemMutRef<'a, T>;
    fn get_elem_mut_ref(&'a mut self, index: usize) -> ElemMutRef<'a, T> {
        ElemMutRef {
            word_iters: self,
            index,
        }
    }
}

pub trait HasWordIters<T: WordIters>: Elements {
    fn get_word_iters(&self) -> &T;
}
pub trait HasWordItersMut<T: WordIters>: HasWordIters<T> {
    fn get_word_iters_mut(&mut self) -> &mut T;
}
