#!/usr/bin/env python3
"""Makes the FCIDUMP files of this folder, and energies.txt, with Psi4 (its Python module, which needs NumPy).

    python3 make.py [--to FOLDER] [NAME..]     without names, the molecules that ship: lih h2o

Each molecule: a restricted Hartree-Fock calculation, Psi4's own FCIDUMP of all its orbitals, each of one symmetry, and
Psi4's own full configuration interaction, no orbital frozen, as the energy that others are to be compared with.
Nothing else in this repository needs Psi4 or NumPy. On Debian: apt-get install psi4, and then, so that Python finds it,
eval "$(psi4 --psiapi-path)".
"""
import argparse
import os
import tempfile

import psi4

SHIPPED = ("lih", "h2o")
WATER = "O\nH 1 0.9572\nH 1 0.9572 2 104.52"
AMMONIA = "N\nX 1 1.0\nH 1 1.0116 2 112.14\nH 1 1.0116 2 112.14 3 120.0\nH 1 1.0116 2 112.14 3 -120.0"
METHANE = "C 0 0 0\nH 0.6276 0.6276 0.6276\nH -0.6276 -0.6276 0.6276\nH -0.6276 0.6276 -0.6276\nH 0.6276 -0.6276 -0.6276"
MOLECULES = {  # name: basis, and geometry in angstrom; docs/CHEMISTRY.md has a table of them
    "he": ("sto-3g", "He"),
    "h2": ("sto-3g", "H\nH 1 0.7414"),
    "h2-631g": ("6-31g", "H\nH 1 0.7414"),
    "h2-631gss": ("6-31g**", "H\nH 1 0.7414"),
    "h4": ("sto-3g", "H 0 0 0\nH 0 0 1\nH 0 0 2\nH 0 0 3"),
    "h6": ("sto-3g", "H 0 0 0\nH 0 0 1\nH 0 0 2\nH 0 0 3\nH 0 0 4\nH 0 0 5"),
    "lih": ("sto-3g", "Li\nH 1 1.5949"),
    "lih-631g": ("6-31g", "Li\nH 1 1.5949"),
    "beh2": ("sto-3g", "Be 0 0 0\nH 0 0 1.3264\nH 0 0 -1.3264"),
    "hf": ("sto-3g", "H\nF 1 0.9168"),
    "h2o": ("sto-3g", WATER),
    "h2o-631g": ("6-31g", WATER),
    "nh3": ("sto-3g", AMMONIA),
    "ch4": ("sto-3g", METHANE),
    "n2": ("sto-3g", "N\nN 1 1.0977"),
    "co": ("sto-3g", "C\nO 1 1.1283"),
}
OPTIONS = {
    "reference": "rhf", "scf_type": "pk", "e_convergence": 1e-13, "d_convergence": 1e-12, "maxiter": 200,
    "ints_tolerance": 1e-15, "ci_maxiter": 200, "r_convergence": 1e-9, "freeze_core": "false", "opdm": "false",
}


def make(name, folder, full_ci):
    """The FCIDUMP of one molecule; the line of energies.txt."""
    basis, geometry = MOLECULES[name]
    psi4.core.clean()
    psi4.core.clean_options()
    molecule = psi4.geometry("0 1\n" + geometry + "\nunits angstrom\n")
    psi4.set_options({**OPTIONS, "basis": basis})
    scf, wfn = psi4.energy("scf", molecule=molecule, return_wfn=True)
    file = f"{name}.fcidump"
    psi4.fcidump(wfn, fname=os.path.join(folder, file))
    nuclei = molecule.nuclear_repulsion_energy()
    fci = psi4.energy("fci", molecule=molecule, ref_wfn=wfn) if full_ci else float("nan")
    print(f"{name}: {molecule.schoenflies_symbol()}, {wfn.nmo()} orbitals, {wfn.nalpha() + wfn.nbeta()} electrons, "
          f"nuclei {nuclei:.12f}, SCF {scf:.12f}, full CI {fci:.12f}", flush=True)
    return f"{file} {nuclei:.12f} {scf:.12f} {fci:.12f}\n"


def main():
    parser = argparse.ArgumentParser()
    parser.add_argument("--to", default=os.path.dirname(os.path.abspath(__file__)))
    parser.add_argument("--no-full-ci", action="store_true")
    parser.add_argument("names", nargs="*", default=SHIPPED)
    chosen = parser.parse_args()
    folder = os.path.abspath(chosen.to)
    os.makedirs(folder, exist_ok=True)
    os.chdir(tempfile.mkdtemp())  # Psi4 leaves files where it runs
    psi4.set_output_file("psi4.out", False)
    lines = [make(name, folder, not chosen.no_full_ci) for name in chosen.names]
    with open(os.path.join(folder, "energies.txt"), "w") as file:
        file.write("".join(lines))


if __name__ == "__main__":
    main()
