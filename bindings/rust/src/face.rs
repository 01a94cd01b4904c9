//! The C functions, each behind a safe call. All unsafe code of the crate stands here.
//!
//! A C function is a value of one of the types below, which say what it reads and what it is lent. Their fields are private,
//! so that no other function can be put in.
//!
//! What include/fermion.h asks of a caller holds for every call in this file, because the arguments are slices and arrays:
//! their pointers are aligned and not null, also where they are empty; they hold as many elements as are named; and what is
//! lent for writing is borrowed exclusively, so that it overlaps nothing else. The records of one call may be the same
//! memory. Each `SAFETY` below refers to this.
#![allow(unsafe_code)]

use crate::{Refusal, REPORT};

/// The eight numbers of an answer that is not a refusal.
pub(crate) type Answer = [u64; 8];

type Bytes = *const u8;
type Words = *const u64;
type Floats = *const f64;
type Lent = *mut u8;
type Numbers = *mut u64;

extern "C" {
    fn fermion_apply(cre: u64, ann: u64, ket: u64, answer: Numbers);
    fn fermion_mul_cmpnts(l_cre: u64, l_ann: u64, r_cre: u64, r_ann: u64, out: Lent, out_len: usize, answer: Numbers);
    fn fermion_check(a: Bytes, a_len: usize, answer: Numbers);
    fn fermion_add(a: Bytes, a_len: usize, b: Bytes, b_len: usize, out: Lent, out_len: usize, answer: Numbers);
    fn fermion_sub(a: Bytes, a_len: usize, b: Bytes, b_len: usize, out: Lent, out_len: usize, answer: Numbers);
    fn fermion_mul(
        a: Bytes,
        a_len: usize,
        b: Bytes,
        b_len: usize,
        work: Lent,
        work_len: usize,
        out: Lent,
        out_len: usize,
        answer: Numbers,
    );
    fn fermion_commutator(
        a: Bytes,
        a_len: usize,
        b: Bytes,
        b_len: usize,
        work: Lent,
        work_len: usize,
        out: Lent,
        out_len: usize,
        answer: Numbers,
    );
    fn fermion_anticommutator(
        a: Bytes,
        a_len: usize,
        b: Bytes,
        b_len: usize,
        work: Lent,
        work_len: usize,
        out: Lent,
        out_len: usize,
        answer: Numbers,
    );
    fn fermion_branches(a: Bytes, a_len: usize, b: Bytes, b_len: usize, answer: Numbers);
    fn fermion_adjoint(a: Bytes, a_len: usize, out: Lent, out_len: usize, answer: Numbers);
    fn fermion_is_hermitian(a: Bytes, a_len: usize, answer: Numbers);
    fn fermion_conserves_particle_number(a: Bytes, a_len: usize, answer: Numbers);
    fn fermion_max_n_body(a: Bytes, a_len: usize, answer: Numbers);
    fn fermion_active_modes(a: Bytes, a_len: usize, answer: Numbers);
    fn fermion_report_add(a: Bytes, a_len: usize, report: Numbers, answer: Numbers);
    fn fermion_import(
        m: u64,
        text: Bytes,
        text_len: usize,
        work: Lent,
        work_len: usize,
        out: Lent,
        out_len: usize,
        answer: Numbers,
    );
    fn fermion_export(a: Bytes, a_len: usize, out: Lent, out_len: usize, answer: Numbers);
    fn fermion_shelf_clear(shelf: Lent, shelf_len: usize, answer: Numbers);
    fn fermion_shelf_put(shelf: Lent, shelf_len: usize, party: u64, a: Bytes, a_len: usize, answer: Numbers);
    fn fermion_shelf_get(
        shelf: Bytes,
        shelf_len: usize,
        party: u64,
        slot: u64,
        out: Lent,
        out_len: usize,
        answer: Numbers,
    );
    fn fermion_shelf_drop(shelf: Lent, shelf_len: usize, party: u64, slot: u64, answer: Numbers);
    fn fermion_block(a: Bytes, a_len: usize, ann: u64, answer: Numbers);
    fn fermion_element(a: Bytes, a_len: usize, bra: u64, ket: u64, answer: Numbers);
    fn fermion_mat_ortho_projected(
        a: Bytes,
        a_len: usize,
        basis: Words,
        basis_len: usize,
        matrix: *mut i64,
        answer: Numbers,
    );
    fn fermion_compare(a: Bytes, a_len: usize, b: Bytes, b_len: usize, answer: Numbers);
    fn fermion_mat_elem_real(
        m: u64,
        cre: Words,
        cre_len: usize,
        ann: Words,
        ann_len: usize,
        coeff: Floats,
        coeff_len: usize,
        bra: u64,
        ket: u64,
        value: *mut f64,
        answer: Numbers,
    );
    fn fermion_mat_elem_complex(
        m: u64,
        cre: Words,
        cre_len: usize,
        ann: Words,
        ann_len: usize,
        re: Floats,
        re_len: usize,
        im: Floats,
        im_len: usize,
        bra: u64,
        ket: u64,
        value: *mut f64,
        answer: Numbers,
    );
}

/// Reads one record.
pub(crate) struct Reads(unsafe extern "C" fn(Bytes, usize, Numbers));

pub(crate) const CHECK: Reads = Reads(fermion_check);
pub(crate) const IS_HERMITIAN: Reads = Reads(fermion_is_hermitian);
pub(crate) const CONSERVES: Reads = Reads(fermion_conserves_particle_number);
pub(crate) const MAX_N_BODY: Reads = Reads(fermion_max_n_body);
pub(crate) const ACTIVE_MODES: Reads = Reads(fermion_active_modes);

impl Reads {
    pub(crate) fn call(&self, a: &[u8]) -> Result<Answer, Refusal> {
        // SAFETY: a slice, and eight numbers.
        answered(|answer| unsafe { (self.0)(a.as_ptr(), a.len(), answer) })
    }
}

/// Reads two records.
pub(crate) struct ReadsTwo(unsafe extern "C" fn(Bytes, usize, Bytes, usize, Numbers));

pub(crate) const BRANCHES: ReadsTwo = ReadsTwo(fermion_branches);
pub(crate) const COMPARE: ReadsTwo = ReadsTwo(fermion_compare);

impl ReadsTwo {
    pub(crate) fn call(&self, a: &[u8], b: &[u8]) -> Result<Answer, Refusal> {
        // SAFETY: slices, and eight numbers.
        answered(|answer| unsafe { (self.0)(a.as_ptr(), a.len(), b.as_ptr(), b.len(), answer) })
    }
}

/// Reads two records and writes one.
pub(crate) struct Sums(unsafe extern "C" fn(Bytes, usize, Bytes, usize, Lent, usize, Numbers));

pub(crate) const ADD: Sums = Sums(fermion_add);
pub(crate) const SUB: Sums = Sums(fermion_sub);

impl Sums {
    pub(crate) fn call(&self, a: &[u8], b: &[u8], out: &mut [u8]) -> Result<Answer, Refusal> {
        // SAFETY: slices, `out` borrowed exclusively, and eight numbers.
        answered(|answer| unsafe {
            (self.0)(a.as_ptr(), a.len(), b.as_ptr(), b.len(), out.as_mut_ptr(), out.len(), answer)
        })
    }
}

/// Reads two records and writes one, with work.
#[derive(Clone, Copy)]
pub(crate) struct Multiplies(unsafe extern "C" fn(Bytes, usize, Bytes, usize, Lent, usize, Lent, usize, Numbers));

pub(crate) const MUL: Multiplies = Multiplies(fermion_mul);
pub(crate) const COMMUTATOR: Multiplies = Multiplies(fermion_commutator);
pub(crate) const ANTICOMMUTATOR: Multiplies = Multiplies(fermion_anticommutator);

impl Multiplies {
    pub(crate) fn call(&self, a: &[u8], b: &[u8], work: &mut [u8], out: &mut [u8]) -> Result<Answer, Refusal> {
        // SAFETY: slices, `work` and `out` borrowed exclusively and so apart, and eight numbers.
        answered(|answer| unsafe {
            (self.0)(
                a.as_ptr(),
                a.len(),
                b.as_ptr(),
                b.len(),
                work.as_mut_ptr(),
                work.len(),
                out.as_mut_ptr(),
                out.len(),
                answer,
            )
        })
    }
}

pub(crate) fn apply(cre: u64, ann: u64, ket: u64) -> Answer {
    // SAFETY: numbers, and eight numbers lent. It is never refused.
    never_refused(|answer| unsafe { fermion_apply(cre, ann, ket, answer) })
}

pub(crate) fn mul_cmpnts(left: (u64, u64), right: (u64, u64), out: &mut [u8]) -> Result<Answer, Refusal> {
    // SAFETY: a slice borrowed exclusively, and eight numbers.
    answered(|answer| unsafe {
        fermion_mul_cmpnts(left.0, left.1, right.0, right.1, out.as_mut_ptr(), out.len(), answer)
    })
}

pub(crate) fn adjoint(a: &[u8], out: &mut [u8]) -> Result<Answer, Refusal> {
    // SAFETY: slices, `out` borrowed exclusively, and eight numbers.
    answered(|answer| unsafe { fermion_adjoint(a.as_ptr(), a.len(), out.as_mut_ptr(), out.len(), answer) })
}

pub(crate) fn report_add(a: &[u8], report: &mut [u64; REPORT]) -> Result<Answer, Refusal> {
    // SAFETY: a slice, a report's numbers borrowed exclusively, and eight numbers.
    answered(|answer| unsafe { fermion_report_add(a.as_ptr(), a.len(), report.as_mut_ptr(), answer) })
}

pub(crate) fn import(m: u64, text: &[u8], work: &mut [u8], out: &mut [u8]) -> Result<Answer, Refusal> {
    // SAFETY: slices, `work` and `out` borrowed exclusively and so apart, and eight numbers.
    answered(|answer| unsafe {
        let (work, work_len) = (work.as_mut_ptr(), work.len());
        fermion_import(m, text.as_ptr(), text.len(), work, work_len, out.as_mut_ptr(), out.len(), answer)
    })
}

pub(crate) fn export(a: &[u8], out: &mut [u8]) -> Result<Answer, Refusal> {
    // SAFETY: slices, `out` borrowed exclusively, and eight numbers.
    answered(|answer| unsafe { fermion_export(a.as_ptr(), a.len(), out.as_mut_ptr(), out.len(), answer) })
}

pub(crate) fn shelf_clear(shelf: &mut [u8]) {
    // SAFETY: a slice borrowed exclusively, and eight numbers. It is never refused.
    never_refused(|answer| unsafe { fermion_shelf_clear(shelf.as_mut_ptr(), shelf.len(), answer) });
}

pub(crate) fn shelf_put(shelf: &mut [u8], party: u64, a: &[u8]) -> Result<Answer, Refusal> {
    // SAFETY: slices, `shelf` borrowed exclusively, and eight numbers.
    answered(|answer| unsafe { fermion_shelf_put(shelf.as_mut_ptr(), shelf.len(), party, a.as_ptr(), a.len(), answer) })
}

pub(crate) fn shelf_get(shelf: &[u8], party: u64, slot: u64, out: &mut [u8]) -> Result<Answer, Refusal> {
    // SAFETY: slices, `out` borrowed exclusively, and eight numbers.
    answered(|answer| unsafe {
        fermion_shelf_get(shelf.as_ptr(), shelf.len(), party, slot, out.as_mut_ptr(), out.len(), answer)
    })
}

pub(crate) fn shelf_drop(shelf: &mut [u8], party: u64, slot: u64) -> Result<Answer, Refusal> {
    // SAFETY: a slice borrowed exclusively, and eight numbers.
    answered(|answer| unsafe { fermion_shelf_drop(shelf.as_mut_ptr(), shelf.len(), party, slot, answer) })
}

pub(crate) fn block(a: &[u8], ann: u64) -> Answer {
    // SAFETY: a slice, and eight numbers.
    never_refused(|answer| unsafe { fermion_block(a.as_ptr(), a.len(), ann, answer) })
}

pub(crate) fn element(a: &[u8], bra: u64, ket: u64) -> Result<Answer, Refusal> {
    // SAFETY: a slice, and eight numbers.
    answered(|answer| unsafe { fermion_element(a.as_ptr(), a.len(), bra, ket, answer) })
}

pub(crate) fn mat_ortho_projected(a: &[u8], basis: &[u64], matrix: &mut [i64; 64]) -> Result<Answer, Refusal> {
    // SAFETY: slices, 64 entries borrowed exclusively, and eight numbers.
    answered(|answer| unsafe {
        let (basis, basis_len) = (basis.as_ptr(), basis.len());
        fermion_mat_ortho_projected(a.as_ptr(), a.len(), basis, basis_len, matrix.as_mut_ptr(), answer)
    })
}

/// The words of a list of terms, and the mode count.
#[derive(Clone, Copy)]
pub(crate) struct List<'a> {
    pub(crate) m: u64,
    pub(crate) cre: &'a [u64],
    pub(crate) ann: &'a [u64],
}

pub(crate) fn mat_elem_real(list: List, coeff: &[f64], bra: u64, ket: u64) -> Result<f64, Refusal> {
    let List { m, cre, ann } = list;
    let mut value = [0.0; 2];
    // SAFETY: slices, two values borrowed exclusively, and eight numbers.
    answered(|answer| unsafe {
        fermion_mat_elem_real(
            m,
            cre.as_ptr(),
            cre.len(),
            ann.as_ptr(),
            ann.len(),
            coeff.as_ptr(),
            coeff.len(),
            bra,
            ket,
            value.as_mut_ptr(),
            answer,
        )
    })?;
    Ok(value[0])
}

pub(crate) fn mat_elem_complex(list: List, re: &[f64], im: &[f64], bra: u64, ket: u64) -> Result<(f64, f64), Refusal> {
    let List { m, cre, ann } = list;
    let mut value = [0.0; 2];
    // SAFETY: slices, two values borrowed exclusively, and eight numbers.
    answered(|answer| unsafe {
        fermion_mat_elem_complex(
            m,
            cre.as_ptr(),
            cre.len(),
            ann.as_ptr(),
            ann.len(),
            re.as_ptr(),
            re.len(),
            im.as_ptr(),
            im.len(),
            bra,
            ket,
            value.as_mut_ptr(),
            answer,
        )
    })?;
    Ok(value.into())
}

/// Lends eight numbers to a call, and tells a refusal from an answer.
fn answered(call: impl FnOnce(Numbers)) -> Result<Answer, Refusal> {
    let answer = never_refused(call);
    match answer {
        [0, ..] => Ok(answer),
        [number, operand, place, ..] => Err(Refusal::new(number, operand, place)),
    }
}

fn never_refused(call: impl FnOnce(Numbers)) -> Answer {
    let mut answer = [0; 8];
    call(answer.as_mut_ptr());
    answer
}
