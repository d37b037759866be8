//! Lays the Rust source out in OUT_DIR beside the stand-ins, appends the lines
//! that mount our drivers, and tells the linker where the Rattle library is.
//! Nothing of the source is kept in the repository.

use std::path::{Path, PathBuf};
use std::{env, fs};

/// Files taken from the source as they stand.
const SOURCE: &[&str] = &[
    "dist/chebyshev/mod.rs",
    "dist/distance_metric_core.rs",
    "dist/manhattan/mod.rs",
    "dist/squared_euclidean/mod.rs",
    "kd_tree/query/tree/cursor.rs",
    "kd_tree/query/tree/leaf.rs",
    "kd_tree/query/tree/metric.rs",
    "kd_tree/query/tree/mod.rs",
    "kd_tree/query/tree/nearest.rs",
    "kd_tree/query/tree/traversal.rs",
    "kd_tree/query_stack.rs",
    "kd_tree/stem_leaf_resolution.rs",
    "stem_strategy/eytzinger/mod.rs",
    "stem_strategy/prefetch.rs",
    "traits/kd_tree.rs",
    "traits/leaf_strategy.rs",
    "traits/stem_strategy.rs",
];

/// Copied files that get a driver of ours as a child module, because what the
/// driver calls is visible from there only.
const DRIVERS: &[(&str, &str)] = &[
    ("kd_tree/query/tree/metric.rs", "src/metric_driver.rs"),
    ("kd_tree/query/tree/mod.rs", "src/driver.rs"),
    ("kd_tree/query/tree/nearest.rs", "src/nearest_driver.rs"),
];

/// Modules of the crate root, with the file each begins in.
const ROOT: &[(&str, &str)] = &[
    ("axis", "axis.rs"),
    ("batch", "batch.rs"),
    ("dist", "dist/mod.rs"),
    ("kd_tree", "kd_tree/mod.rs"),
    ("leaf_strategy", "leaf_strategy.rs"),
    ("leaf_view", "leaf_view/mod.rs"),
    ("names", "names.rs"),
    ("stem_strategy", "stem_strategy/mod.rs"),
    ("traits", "traits/mod.rs"),
];

fn main() {
    let package = PathBuf::from(env::var_os("CARGO_MANIFEST_DIR").unwrap());
    let out = PathBuf::from(env::var_os("OUT_DIR").unwrap());
    lay_out(&package, &out.join("kiddo"));
    fs::write(out.join("kiddo.rs"), root(&out.join("kiddo"))).unwrap();
    link(&package);
}

/// A folder given by an environment variable, else one beside the package.
fn folder(package: &Path, variable: &str, default: &str) -> PathBuf {
    println!("cargo:rerun-if-env-changed={variable}");
    env::var_os(variable).map_or_else(|| package.join(default), PathBuf::from)
}

/// The folder given may be the crate's, with `src` in it, or `src` itself.
fn crate_source(given: PathBuf) -> PathBuf {
    let inner = given.join("src");
    if inner.is_dir() {
        inner
    } else {
        given
    }
}

fn lay_out(package: &Path, kiddo: &Path) {
    let source = crate_source(folder(package, "KIDDO_SRC", "../../shared/docs/src"));
    for file in SOURCE {
        copy(&source.join(file), &kiddo.join(file));
    }
    copy_all(&package.join("standins"), kiddo);
    for (file, driver) in DRIVERS {
        mount(&kiddo.join(file), &package.join(driver));
    }
}

fn copy(from: &Path, to: &Path) {
    println!("cargo:rerun-if-changed={}", from.display());
    fs::create_dir_all(to.parent().unwrap()).unwrap();
    let text = fs::read_to_string(from).unwrap_or_else(|error| {
        panic!(
            "{}: {error}; set KIDDO_SRC to the folder with the Rust source",
            from.display()
        )
    });
    fs::write(to, text).unwrap();
}

fn copy_all(from: &Path, to: &Path) {
    println!("cargo:rerun-if-changed={}", from.display());
    for entry in fs::read_dir(from).unwrap() {
        let entry = entry.unwrap();
        let target = to.join(entry.file_name());
        if entry.file_type().unwrap().is_dir() {
            copy_all(&entry.path(), &target);
        } else {
            copy(&entry.path(), &target);
        }
    }
}

/// Appends the two lines that make `driver` a child module of `file`.
fn mount(file: &Path, driver: &Path) {
    let mut text = fs::read_to_string(file).unwrap();
    text.push_str(&format!("#[path = {driver:?}]\npub mod driver;\n"));
    fs::write(file, text).unwrap();
}

/// The source is a part of its crate: it has features we don't, and parts that
/// only the rest of the crate would use.
const ALLOWED: &str = "clippy::all, dead_code, private_bounds, private_interfaces, \
    unexpected_cfgs, unused_imports, unused_variables";

fn root(kiddo: &Path) -> String {
    let module = |(name, file): &(&str, &str)| {
        let file = kiddo.join(file);
        format!("#[allow({ALLOWED})]\n#[path = {file:?}]\npub(crate) mod {name};\n")
    };
    ROOT.iter().map(module).collect()
}

fn link(package: &Path) {
    let folder = folder(package, "OULAVISOK_LIB", "../crates/beside/out");
    let library = folder.join("libbeside.a");
    println!("cargo:rerun-if-changed={}", library.display());
    assert!(
        library.exists(),
        "no {}: run `rt lib` in crates/beside, or set OULAVISOK_LIB",
        library.display()
    );
    println!("cargo:rustc-link-search=native={}", folder.display());
    println!("cargo:rustc-link-lib=static=beside");
}
