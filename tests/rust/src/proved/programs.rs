//! The proved programs: the environment's `FADZGIME_PROGRAMS` names the folder that holds them.

use std::path::PathBuf;

/// The path of a program; one that is not there is a failure.
pub fn program(name: &str) -> PathBuf {
    let folder = std::env::var_os("FADZGIME_PROGRAMS").expect("FADZGIME_PROGRAMS names the folder");
    let path = PathBuf::from(folder).join(name);
    assert!(path.exists(), "{} is not there", path.display());
    path
}
