//! Answers questions put to zixy's functions, one line in, one line out.
//!
//! Words are hexadecimal, mode counts M and lengths N decimal. A coefficient is decimal in Rust's
//! shortest exact form; of type `c` it is two fields, re and im. OP is N and then N times
//! `ann cre coeff`. Empty lines and lines that start with `#` get no answer.
//!
//! ```text
//! count WORD AT                       n
//! apply CRE ANN KET                   zero | word sign
//! mul_cmpnts M LCRE LANN RCRE RANN    N and N times `ann cre sign`: the rows, in the Rust's order
//! mul_joined M LCRE LANN RCRE RANN    rows, N and N times `ann cre coeff`: the number of rows, then
//!                                     the rows as coefficients by term, zeros dropped, ascending
//! add|sub|mul|commutator|anticommutator f|c M OP OP        OP
//! adjoint f|c M OP                    OP
//! hermitian|conserves f|c M OP        true | false
//! max_n_body f|c M OP                 n
//! active f|c M OP                     word
//! elem f|c M OP BRA KET               coeff
//! proj f|c M OP K and K words         K*K coefficients by rows | nonorthogonal
//! ```
//!
//! A panic inside zixy, or a line that cannot be read, is answered by `panic` and the message.
use num_complex::Complex64;
use std::collections::BTreeMap;
use std::io::{BufRead, Write};
use std::panic::{catch_unwind, AssertUnwindSafe};
use zixy::container::coeffs::sign::SignVec;
use zixy::container::coeffs::traits::FieldElem;
use zixy::container::traits::{proj::Borrow, Elements, RefElements};
use zixy::container::word_iters::terms::AsViewMut;
use zixy::container::word_iters::WordIters;
use zixy::fermion::mode::Modes;
use zixy::fermion::operator::normal::cmpnt_list::CmpntList;
use zixy::fermion::operator::normal::cmpnt_major::term_set::TermSet;
use zixy::fermion::operator::normal::cmpnt_major::terms::Terms;
use zixy::fermion::operator::normal::cmpnt_major::{lincomb, mat_elem};
use zixy::fermion::operator::normal::products::{apply_op_ket_u64, mul_cmpnts, ApplyResult};
use zixy::fermion::operator::normal::products_open::count_open;
use zixy::fermion::state::cmpnt_list::CmpntList as StateList;

/// The fields of one line.
struct Fields<'a>(std::str::SplitAsciiWhitespace<'a>);

impl<'a> Fields<'a> {
    fn text(&mut self) -> &'a str {
        self.0.next().expect("short line")
    }
    fn word(&mut self) -> u64 {
        u64::from_str_radix(self.text(), 16).expect("hexadecimal word")
    }
    fn count(&mut self) -> usize {
        self.text().parse().expect("count")
    }
}

trait Coefficient: FieldElem {
    fn read(fields: &mut Fields) -> Self;
    fn show(&self) -> String;
}

impl Coefficient for f64 {
    fn read(fields: &mut Fields) -> Self {
        fields.text().parse().expect("coefficient")
    }
    fn show(&self) -> String {
        format!("{self:?}")
    }
}

impl Coefficient for Complex64 {
    fn read(fields: &mut Fields) -> Self {
        Complex64::new(f64::read(fields), f64::read(fields))
    }
    fn show(&self) -> String {
        format!("{:?} {:?}", self.re, self.im)
    }
}

fn read_operator<C: Coefficient>(fields: &mut Fields, m: usize) -> Terms<C> {
    let mut terms = Terms::<C>::new(Modes::from_count(m));
    for _ in 0..fields.count() {
        let (ann, cre) = (fields.word(), fields.word());
        let coeff = C::read(fields);
        terms.push_u64it([cre, ann].into_iter(), coeff);
    }
    terms
}

fn show_operator<C: Coefficient>(terms: &Terms<C>) -> String {
    let mut line = terms.len().to_string();
    for i in 0..terms.len() {
        let (ann, cre) = words(&terms.word_iters, i);
        line += &format!(" {ann:x} {cre:x} {}", terms.coeffs[i].show());
    }
    line
}

/// The annihilation and the creation word of one component.
fn words(list: &CmpntList, i: usize) -> (u64, u64) {
    let mut both = list.elem_u64it(i);
    let cre = both.next().expect("creation word");
    let ann = both.next().expect("annihilation word");
    (ann, cre)
}

fn states(m: usize, words: &[u64]) -> StateList {
    let mut list = StateList::new(Modes::from_count(m));
    words
        .iter()
        .for_each(|word| list.push_u64it([*word].into_iter()));
    list
}

fn multiply(fields: &mut Fields) -> (CmpntList, SignVec) {
    let mut pair = CmpntList::new(Modes::from_count(fields.count()));
    for _ in 0..2 {
        let term = [fields.word(), fields.word()];
        pair.push_u64it(term.into_iter());
    }
    let (rows, signs) = mul_cmpnts(&pair.get_elem_ref(0), &pair.get_elem_ref(1));
    assert_eq!(rows.len(), signs.len(), "as many signs as rows");
    (rows, signs)
}

fn operators<C: Coefficient>(command: &str, fields: &mut Fields) -> String {
    let m = fields.count();
    let a = read_operator::<C>(fields, m);
    match command {
        "add" | "sub" | "mul" | "commutator" | "anticommutator" => {
            let b = read_operator::<C>(fields, m);
            let (a, b) = (&a.borrow(), &b.borrow());
            let result: TermSet<C> = match command {
                "add" => lincomb::add(a, b),
                "sub" => lincomb::sub(a, b),
                "mul" => lincomb::mul(a, b).unwrap(),
                "commutator" => lincomb::commutator(a, b).unwrap(),
                _ => lincomb::anticommutator(a, b).unwrap(),
            };
            show_operator(&result.terms)
        }
        "adjoint" => show_operator(&lincomb::adjoint(&a.borrow())),
        "hermitian" => lincomb::is_hermitian(&a.borrow(), 0.0).to_string(),
        "conserves" => lincomb::conserves_particle_number(&a.borrow(), 0.0).to_string(),
        "max_n_body" => lincomb::max_n_body(&a.borrow()).to_string(),
        "active" => {
            let modes = lincomb::active_modes(&a.borrow());
            format!(
                "{:x}",
                modes.into_iter().fold(0u64, |word, i| word | 1 << i)
            )
        }
        "elem" => {
            let list = states(m, &[fields.word(), fields.word()]);
            mat_elem::mat_elem_cmpnts(&a, &list.get_elem_ref(0), &list.get_elem_ref(1)).show()
        }
        "proj" => {
            let k = fields.count();
            let basis: Vec<u64> = (0..k).map(|_| fields.word()).collect();
            match mat_elem::mat_ortho_projected(&a.borrow(), states(m, &basis)) {
                Ok(matrix) => matrix
                    .data
                    .iter()
                    .map(C::show)
                    .collect::<Vec<_>>()
                    .join(" "),
                Err(_) => "nonorthogonal".into(),
            }
        }
        _ => format!("unknown {command}"),
    }
}

fn answer(line: &str) -> String {
    let mut fields = Fields(line.split_ascii_whitespace());
    match fields.text() {
        "count" => count_open(fields.word(), fields.word()).to_string(),
        "apply" => match apply_op_ket_u64(fields.word(), fields.word(), fields.word()) {
            ApplyResult::Applied(word, sign) => format!("{word:x} {sign}"),
            ApplyResult::Zero => "zero".into(),
        },
        "mul_cmpnts" => {
            let (rows, signs) = multiply(&mut fields);
            let mut line = rows.len().to_string();
            for (i, sign) in signs.iter().enumerate() {
                let (ann, cre) = words(&rows, i);
                line += &format!(" {ann:x} {cre:x} {sign}");
            }
            line
        }
        "mul_joined" => {
            let (rows, signs) = multiply(&mut fields);
            let mut sums = BTreeMap::<(u64, u64), i64>::new();
            for (i, sign) in signs.iter().enumerate() {
                *sums.entry(words(&rows, i)).or_default() += if sign.0 { -1 } else { 1 };
            }
            sums.retain(|_, coeff| *coeff != 0);
            let mut line = format!("{} {}", rows.len(), sums.len());
            for ((ann, cre), coeff) in sums {
                line += &format!(" {ann:x} {cre:x} {coeff}");
            }
            line
        }
        command => match fields.text() {
            "f" => operators::<f64>(command, &mut fields),
            "c" => operators::<Complex64>(command, &mut fields),
            other => format!("unknown {command} {other}"),
        },
    }
}

fn main() {
    std::panic::set_hook(Box::new(|_| {}));
    let mut out = std::io::BufWriter::new(std::io::stdout().lock());
    for line in std::io::stdin().lock().lines() {
        let line = line.expect("standard input");
        if line.trim().is_empty() || line.starts_with('#') {
            continue;
        }
        let reply = catch_unwind(AssertUnwindSafe(|| answer(&line))).unwrap_or_else(|panic| {
            let message = panic.downcast_ref::<String>().map(String::as_str);
            let message = message.or(panic.downcast_ref::<&str>().copied());
            format!("panic {}", message.unwrap_or_default().replace('\n', " / "))
        });
        writeln!(out, "{reply}").expect("standard output");
    }
}
