#!/usr/bin/env python3
"""Makes the corrected copy: five corrections, written into a COPY of zixy's sources.

    python3 corrections.py FOLDER

The copy is not the unchanged Rust and no stored answer comes from it. It shows that these five
corrections are all that parts the Rust's products, adjoints and ranks from the specification.
"""
import pathlib
import sys

PRODUCTS = "fermion/operator/normal/products.rs"
LINCOMB = "fermion/operator/normal/cmpnt_major/lincomb.rs"
CMPNT_LIST = "fermion/operator/normal/cmpnt_list.rs"

# (what is corrected, file, [(text that must occur exactly once, its replacement)])
CORRECTIONS = [
    (
        "1. do_branch, main loop, a mode of L's annihilations: count the modes before it in the "
        "annihilations gathered so far, as the tail loop does, not those after it",
        PRODUCTS,
        [("self.res_ann(i_branch).count_set_bits_after(i_lhs);",
          "self.res_ann(i_branch).count_set_bits_before(i_lhs);")],
    ),
    (
        "2. do_branch, main loop, a mode of R's creations: count the modes after it in the "
        "creations gathered so far, as the tail loop does, not those before it",
        PRODUCTS,
        [("self.res_cre(i_branch).count_set_bits_before(i_rhs);",
          "self.res_cre(i_branch).count_set_bits_after(i_rhs);")],
    ),
    (
        "3. ProductHelper::set: size the list by the branching modes, not by all common modes",
        PRODUCTS,
        [("""        let n_bif = lhs
            .get_ann_part()
            .intersection_hamming_weight(&rhs.get_cre_part());
""",
          """        let n_bif = (0..lhs.get_ann_part().n_bit())
            .filter(|&i| {
                lhs.get_ann_part().get_bit_unchecked(i)
                    && rhs.get_cre_part().get_bit_unchecked(i)
                    && !lhs.get_cre_part().get_bit_unchecked(i)
                    && !rhs.get_ann_part().get_bit_unchecked(i)
            })
            .count();
"""),
         ("""        self.n_bif = rhs
            .get_cre_part()
            .intersection_hamming_weight(&lhs.get_ann_part());
""",
          "        self.n_bif = n_bif;\n")],
    ),
    (
        "4. lincomb::adjoint: give the coefficient the sign of turning both words round",
        LINCOMB,
        [("        let coeff_conj = coeff.conj();\n",
          """        let coeff_conj = coeff.conj();
        let minus = cmpnt.get_cre_part().sign_of_dagger().0 ^ cmpnt.get_ann_part().sign_of_dagger().0;
        let coeff_conj = if minus { -coeff_conj } else { coeff_conj };
""")],
    ),
    (
        "5. CmpntRef::count_n_body: the larger of the two counts, not half of their sum",
        CMPNT_LIST,
        [("        (n_cre + n_ann) / 2\n", "        n_cre.max(n_ann)\n")],
    ),
]


def main():
    if len(sys.argv) != 2:
        sys.exit(__doc__)
    folder = pathlib.Path(sys.argv[1])
    for what, name, edits in CORRECTIONS:
        path = folder / name
        text = path.read_text()
        for old, new in edits:
            if text.count(old) != 1:
                sys.exit(f"corrections.py: {name}: expected exactly once: {old.strip()}")
            text = text.replace(old, new)
        path.write_text(text)
        print("corrected:", what)


main()
