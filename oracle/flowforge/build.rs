//! Lays out the source tree of the originals in OUT_DIR: each original as a copy of the file in the folder
//! that FLOWFORGE_SRC names, and a file of `stand_ins/` in each place that the originals lean on and that is
//! not compiled here. No original is changed or kept in the project.

use std::{
    env, fs,
    path::{Path, PathBuf},
};

const ORIGINALS: &[&str] = &[
    "lib.rs",
    "flow.rs",
    "quantities/mod.rs",
    "quantities/information.rs",
    "quantities/information_rate.rs",
    "quantities/time.rs",
    "quantities/time_span.rs",
    "util/average.rs",
    "util/logging.rs",
    "util/meters.rs",
    "util/rand.rs",
    "ccas/remy/mod.rs",
    "ccas/remy/action.rs",
    "ccas/remy/cube.rs",
    "ccas/remy/dna.rs",
    "ccas/remy/point.rs",
    "ccas/remy/rule_tree.rs",
    "trainers/remy.rs",
];

/// Stand-in and the place where it stands.
const STAND_INS: &[(&str, &str)] = &[
    ("eval.rs", "tree/eval.rs"),
    ("simulation.rs", "tree/simulation.rs"),
    ("util.rs", "tree/util/mod.rs"),
    ("ccas.rs", "tree/ccas/mod.rs"),
    ("trainers.rs", "tree/trainers/mod.rs"),
    ("empty.rs", "tree/components.rs"),
    ("empty.rs", "tree/networks.rs"),
    ("protos.rs", "protos/mod.rs"),
];

/// The folder of the originals' lib.rs. A relative FLOWFORGE_SRC starts at the project's root.
fn originals() -> PathBuf {
    let project = Path::new(&env::var("CARGO_MANIFEST_DIR").unwrap()).join("../..");
    let given = env::var("FLOWFORGE_SRC").unwrap_or_else(|_| "../shared/docs/src".to_owned());
    let folder = project.join(given);
    for candidate in [folder.join("src"), folder.clone()] {
        if candidate.join("ccas/remy/rule_tree.rs").is_file() {
            return candidate.canonicalize().unwrap();
        }
    }
    eprintln!("no originals in {}: set FLOWFORGE_SRC", folder.display());
    std::process::exit(1);
}

fn main() {
    let out = PathBuf::from(env::var("OUT_DIR").unwrap());
    let source = originals();
    let tree = out.join("tree");
    if tree.exists() {
        fs::remove_dir_all(&tree).unwrap();
    }
    for name in ORIGINALS {
        let (from, to) = (source.join(name), tree.join(name));
        fs::create_dir_all(to.parent().unwrap()).unwrap();
        fs::copy(&from, &to).unwrap();
        println!("cargo:rerun-if-changed={}", from.display());
    }
    for (name, place) in STAND_INS {
        let (from, to) = (Path::new("stand_ins").join(name), out.join(place));
        fs::create_dir_all(to.parent().unwrap()).unwrap();
        fs::copy(&from, to).unwrap();
        println!("cargo:rerun-if-changed={}", from.display());
    }
    let root = format!("#[path = {:?}]\nmod originals;\n", tree.join("lib.rs"));
    fs::write(out.join("originals.rs"), root).unwrap();
    println!("cargo:rerun-if-env-changed=FLOWFORGE_SRC");
    println!("cargo:rerun-if-changed=build.rs");
}
