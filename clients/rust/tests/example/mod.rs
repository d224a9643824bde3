//! The example that this run of cargo has built.

use std::path::PathBuf;

pub fn follow() -> PathBuf {
    let test = std::env::current_exe().unwrap();
    let built = test.parent().unwrap().parent().unwrap();
    built.join("examples").join("follow")
}
