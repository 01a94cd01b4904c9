//! Shim: the few things that zixy's files use of the crate `ndarray`.

#[derive(Clone, Debug, PartialEq)]
pub struct Array2<T> {
    pub dim: (usize, usize),
    pub data: Vec<T>,
}

impl<T: Clone + Default> Array2<T> {
    pub fn zeros(dim: (usize, usize)) -> Self {
        let data = vec![T::default(); dim.0 * dim.1];
        Self { dim, data }
    }
}

impl<T> std::ops::Index<[usize; 2]> for Array2<T> {
    type Output = T;
    fn index(&self, i: [usize; 2]) -> &T {
        assert!(i[1] < self.dim.1);
        &self.data[i[0] * self.dim.1 + i[1]]
    }
}

impl<T> std::ops::IndexMut<[usize; 2]> for Array2<T> {
    fn index_mut(&mut self, i: [usize; 2]) -> &mut T {
        assert!(i[1] < self.dim.1);
        &mut self.data[i[0] * self.dim.1 + i[1]]
    }
}
