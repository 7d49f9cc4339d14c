//! Lays the u-routing sources, unchanged, and the glue around them into OUT_DIR, and tells the
//! linker where the planner's library and the probe's are.
//!
//! U_ROUTING_SRC names the folder that holds the sources' `src`; without it they are looked for
//! beside the repository. PLANNER_LIB is the whole path of the folder of libplanner.a, PROBE_LIB
//! of that of libprobe.a; without one the commands that do not need it still build.

#![deny(warnings)]

use std::path::{Path, PathBuf};
use std::{env, fs, io};

/// The sources that are compared with, and the glue: module lists, and the file that
/// evaluation/mod.rs declares and the copy lacks.
const SOURCES: [&str; 15] = [
    "constructive/clarke_wright.rs",
    "constructive/multi_depot.rs",
    "constructive/nearest_neighbor.rs",
    "constructive/nn_tw.rs",
    "constructive/solomon_i1.rs",
    "constructive/sweep.rs",
    "distance/matrix.rs",
    "evaluation/evaluator.rs",
    "evaluation/mod.rs",
    "evaluation/schedule.rs",
    "fleet.rs",
    "models/customer.rs",
    "models/route.rs",
    "models/solution.rs",
    "models/vehicle.rs",
];
const GLUE: [&str; 7] = [
    "lib.rs",
    "constructive/mod.rs",
    "distance/mod.rs",
    "evaluation/check.rs",
    "home/mod.rs",
    "home/evaluation.rs",
    "models/mod.rs",
];
/// Laid once more, below `home`, where they ask its `evaluation`.
const ASKING: [&str; 2] = ["constructive/", "fleet.rs"];

fn main() {
    let here = PathBuf::from(env::var_os("CARGO_MANIFEST_DIR").expect("set by cargo"));
    let out = PathBuf::from(env::var_os("OUT_DIR").expect("set by cargo")).join("u_routing");
    println!("cargo::rerun-if-env-changed=U_ROUTING_SRC");
    let sources = match env::var_os("U_ROUTING_SRC") {
        Some(folder) => PathBuf::from(folder),
        None => here.join("../../../shared/docs/src"),
    };
    let sources = SOURCES.map(|file| (sources.join("src").join(file), out.join(file)));
    let glue = GLUE.map(|file| (here.join("glue").join(file), out.join(file)));
    let files = SOURCES.iter().chain(&GLUE).zip(sources.iter().chain(&glue));
    for (file, (from, to)) in files {
        let again = ASKING.iter().any(|asking| file.starts_with(asking));
        let again = again.then(|| out.join("home").join(file));
        if let Err(error) = lay(from, to, again.as_deref()) {
            let from = from.display();
            println!("cargo::error={from}: {error} (U_ROUTING_SRC names the u-routing folder)");
            return;
        }
    }
    link("planner", "PLANNER_LIB");
    link("probe", "PROBE_LIB");
}

/// Copies one file. A last line that is a doc comment of an item the copy lacks gets an empty
/// item to stand on; every other byte is the original's. What is laid `again` names another module.
fn lay(from: &Path, to: &Path, again: Option<&Path>) -> io::Result<()> {
    println!("cargo::rerun-if-changed={}", from.display());
    let mut text = fs::read_to_string(from)?;
    if text.lines().last().is_some_and(|line| line.starts_with("///")) {
        text.push_str("const _: () = ();\n");
    }
    if let Some(again) = again {
        write(again, &text.replace("crate::evaluation", "crate::home::evaluation"))?;
    }
    write(to, &text)
}

fn write(to: &Path, text: &str) -> io::Result<()> {
    fs::create_dir_all(to.parent().expect("a file has a folder"))?;
    fs::write(to, text)
}

/// A library whose folder is named is linked, and its `cfg` set.
fn link(library: &str, variable: &str) {
    println!("cargo::rerun-if-env-changed={variable}");
    println!("cargo::rustc-check-cfg=cfg({library})");
    if let Ok(folder) = env::var(variable) {
        println!("cargo::rerun-if-changed={folder}/lib{library}.a");
        println!("cargo::rustc-link-search=native={folder}");
        println!("cargo::rustc-cfg={library}");
    }
}
