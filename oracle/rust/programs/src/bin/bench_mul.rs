//! Times one product: zixy's `mul_cmpnts` and, in the same process, a library's `fermion_mul_cmpnts`.
//!
//! ```text
//! bench_mul [--library FILE.so] LIST...
//! ```
//!
//! A line of a LIST is `m lcre lann rcre rann`, m decimal and the words hexadecimal. In each of ROUNDS
//! rounds, every list is gone through by zixy and then by the library, as often as TURN needs; the best
//! time of each counts. Going round over all lists keeps a slow moment of the machine from falling on
//! one list alone. zixy makes its own lists of rows, and dropping them is part of its time. The library
//! is lent 24 bytes for each row of the product, and no bytes where it is empty.
use programs::timing::{self, Symbol, Timing, ROUNDS};
use std::hint::black_box;
use zixy::container::traits::RefElements;
use zixy::container::word_iters::WordIters;
use zixy::fermion::mode::Modes;
use zixy::fermion::operator::normal::cmpnt_list::CmpntList;
use zixy::fermion::operator::normal::products::mul_cmpnts;

type MulCmpnts = unsafe extern "C" fn(u64, u64, u64, u64, *mut u8, usize, *mut u64);

fn fail(message: String) -> ! {
    timing::fail("bench_mul", message)
}

fn load(file: &str) -> MulCmpnts {
    // SAFETY: the symbol has the type that the header declares.
    unsafe { std::mem::transmute::<Symbol, MulCmpnts>(timing::load("bench_mul", file, c"fermion_mul_cmpnts")) }
}

/// One product: the four words, and how many rows the specification gives it.
struct Product {
    l_cre: u64,
    l_ann: u64,
    r_cre: u64,
    r_ann: u64,
    rows: usize,
}

impl Product {
    fn new(l_cre: u64, l_ann: u64, r_cre: u64, r_ann: u64) -> Self {
        let is_empty = l_cre & r_cre & !l_ann != 0 || l_ann & r_ann & !r_cre != 0;
        let branching = (l_ann & r_cre & !l_cre & !r_ann).count_ones();
        if branching > 24 {
            fail(format!("{branching} branching modes are too many to time"));
        }
        let rows = if is_empty { 0 } else { 1 << branching };
        Self {
            l_cre,
            l_ann,
            r_cre,
            r_ann,
            rows,
        }
    }

    fn call(&self, function: MulCmpnts, out: &mut [u8], answer: &mut [u64; 8]) {
        let out = &mut out[..24 * self.rows];
        // SAFETY: `out` is lent with its length, and `answer` has the eight entries that are filled.
        unsafe {
            function(
                self.l_cre,
                self.l_ann,
                self.r_cre,
                self.r_ann,
                out.as_mut_ptr(),
                out.len(),
                answer.as_mut_ptr(),
            )
        }
    }
}

/// A list of products, and the same terms as zixy holds them: term 2i times term 2i+1.
struct List {
    name: String,
    products: Vec<Product>,
    terms: CmpntList,
    rows: usize,
    out: Vec<u8>,
    zixy: Timing,
    library: Timing,
}

impl List {
    fn read(path: &str) -> Self {
        let text = std::fs::read_to_string(path).unwrap_or_else(|e| fail(format!("{path}: {e}")));
        let (mut products, mut terms, mut modes) = (vec![], None, 0);
        for line in text.lines() {
            let bad = || -> ! { fail(format!("{path}: not a pair: {line}")) };
            let fields: Vec<&str> = line.split_ascii_whitespace().collect();
            if fields.len() != 5 {
                bad();
            }
            let m: usize = fields[0].parse().unwrap_or_else(|_| bad());
            let word = |i: usize| u64::from_str_radix(fields[i], 16).unwrap_or_else(|_| bad());
            let terms = terms.get_or_insert_with(|| {
                modes = m;
                CmpntList::new(Modes::from_count(m))
            });
            if m != modes || !(1..=64).contains(&m) {
                fail(format!(
                    "{path}: one list holds pairs of one mode count, 1 to 64"
                ));
            }
            terms.push_u64it([word(1), word(2)].into_iter());
            terms.push_u64it([word(3), word(4)].into_iter());
            products.push(Product::new(word(1), word(2), word(3), word(4)));
        }
        let stem = std::path::Path::new(path).file_stem().unwrap_or_default();
        let most = products.iter().map(|p| p.rows).max().unwrap_or(0);
        Self {
            name: stem.to_string_lossy().into_owned(),
            rows: products.iter().map(|p| p.rows).sum(),
            terms: terms.unwrap_or_else(|| fail(format!("{path}: no pairs"))),
            products,
            out: vec![0; 24 * most + 1],
            zixy: Timing::default(),
            library: Timing::default(),
        }
    }

    /// The library's answers must have the right number of rows before they are timed.
    fn check(&mut self, function: MulCmpnts) {
        for p in &self.products {
            let mut answer = [u64::MAX; 8];
            p.call(function, &mut self.out, &mut answer);
            let rows = p.rows as u64;
            if answer != [0, 0, 0, 24 * rows, rows, 0, 0, 0] {
                let Product {
                    l_cre,
                    l_ann,
                    r_cre,
                    r_ann,
                    ..
                } = p;
                let pair = format!("{l_cre:x} {l_ann:x} {r_cre:x} {r_ann:x}");
                fail(format!(
                    "{}: {pair}: the library answers {answer:?}",
                    self.name
                ));
            }
        }
    }

    fn time_zixy(&mut self) {
        self.zixy.turn(|| {
            for i in 0..self.products.len() {
                let left = self.terms.get_elem_ref(2 * i);
                let right = self.terms.get_elem_ref(2 * i + 1);
                black_box(mul_cmpnts(black_box(&left), black_box(&right)));
            }
        });
    }

    fn time_library(&mut self, function: MulCmpnts) {
        self.library.turn(|| {
            for p in &self.products {
                let mut answer = [0; 8];
                black_box(p).call(function, &mut self.out, &mut answer);
                black_box((&answer, &self.out));
            }
        });
    }

    fn print(&self, has_library: bool) {
        let Self {
            name,
            products,
            rows,
            zixy,
            library,
            ..
        } = self;
        let pairs = products.len();
        let (zixy, library) = (zixy.nanoseconds(), library.nanoseconds());
        let each = |time: f64, n: usize| match n {
            0 => "-".to_string(),
            _ => format!("{:.1}", time / n as f64),
        };
        let ours = match has_library {
            true => (
                each(library, pairs),
                format!("{:.2}", zixy / library),
                each(library, *rows),
            ),
            false => ("-".into(), "-".into(), "-".into()),
        };
        print_line([
            name,
            &pairs.to_string(),
            &rows.to_string(),
            &each(zixy, pairs),
            &ours.0,
            &ours.1,
            &each(zixy, *rows),
            &ours.2,
        ]);
    }
}

fn print_line(cells: [&str; 8]) {
    let [name, rest @ ..] = cells;
    println!(
        "{name:24}{}",
        rest.map(|cell| format!("{cell:>12}")).concat()
    );
}

fn main() {
    let mut paths: Vec<String> = std::env::args().skip(1).collect();
    let mut library = None;
    if paths.first().is_some_and(|first| first == "--library") && paths.len() > 1 {
        library = Some(load(&paths[1]));
        paths.drain(..2);
    }
    if paths.is_empty() {
        fail("bench_mul [--library FILE.so] LIST...".into());
    }
    let mut lists: Vec<List> = paths.iter().map(|path| List::read(path)).collect();
    if let Some(function) = library {
        lists.iter_mut().for_each(|list| list.check(function));
    }
    for _ in 0..ROUNDS {
        for list in &mut lists {
            list.time_zixy();
            if let Some(function) = library {
                list.time_library(function);
            }
        }
    }
    print_line([
        "",
        "",
        "",
        "zixy ns",
        "library ns",
        "zixy /",
        "zixy ns",
        "library ns",
    ]);
    print_line([
        "list",
        "pairs",
        "rows",
        "a product",
        "a product",
        "library",
        "a row",
        "a row",
    ]);
    lists.iter().for_each(|list| list.print(library.is_some()));
}
