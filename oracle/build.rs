//! Names the original files, in the directory that TOYDB_SRC gives, as modules. They are compiled
//! where they stand: nothing of them is copied.

use std::path::Path;
use std::{env, fs};

/// Each folder of the original's `src/sql`, and its files that are compiled.
const ORIGINALS: [(&str, &[&str]); 4] = [
    ("engine", &["engine", "local"]),
    ("execution", &["aggregator", "executor", "join"]),
    ("planner", &["plan"]),
    ("types", &["expression", "schema", "value"]),
];

fn main() {
    println!("cargo::rerun-if-env-changed=TOYDB_SRC");
    let Some(source) = env::var_os("TOYDB_SRC") else {
        panic!(
            "set TOYDB_SRC to a checkout of toydb at 2d7cd32ef8, or to its files under their own paths"
        );
    };
    let source = fs::canonicalize(&source)
        .unwrap_or_else(|error| panic!("TOYDB_SRC names {}: {error}", source.display()));
    let out = env::var_os("OUT_DIR").expect("cargo names the output directory");

    for (folder, files) in ORIGINALS {
        let mut modules = String::new();
        for file in files {
            let path = source.join("src/sql").join(folder).join(format!("{file}.rs"));
            assert!(
                path.is_file(),
                "{} is missing: TOYDB_SRC names another directory",
                path.display()
            );
            println!("cargo::rerun-if-changed={}", path.display());
            modules.push_str(&format!("#[path = {path:?}]\nmod {file};\n"));
        }
        fs::write(Path::new(&out).join(format!("{folder}.rs")), modules).expect("written");
    }
}
