//! The sessions in a folder, as oracle/gen/gen_sessions.py writes them. EXTREAD_SESSIONS names it; without it nothing is run.
use std::{env, fs};

use compare::Compared;

#[test]
fn sessions_of_a_folder() {
    let Ok(folder) = env::var("EXTREAD_SESSIONS") else { return };
    let mut names: Vec<_> = fs::read_dir(&folder).unwrap().map(|f| f.unwrap().path()).collect();
    names.retain(|p| p.extension().is_some_and(|x| x == "bin"));
    names.sort();
    assert!(!names.is_empty(), "no session (*.bin) in {folder}");
    let mut compared = Compared::default();
    for name in &names {
        let bytes = fs::read(name).unwrap();
        compared.session(&bytes).unwrap_or_else(|e| panic!("{}\n{e}", name.display()));
    }
    print!("{compared}");
}
