//! Holds the reference to the sample rules: `samples FOLDER` answers each NAME.rule of the folder
//! and compares the answer with NAME.out, byte for byte.

mod reference;

use std::path::{Path, PathBuf};
use std::process::ExitCode;
use std::{env, fs, io};

fn main() -> io::Result<ExitCode> {
    let folder = env::args().nth(1).expect("usage: samples FOLDER");
    let rules = rules_in(Path::new(&folder))?;
    let mut differ = 0;
    for rule in &rules {
        let expected = fs::read(rule.with_extension("out"))?;
        let answered = reference::answer(&fs::read(rule)?);
        if answered != expected {
            differ += 1;
            println!("{} differs: the reference answers", rule.display());
            println!("{}", String::from_utf8_lossy(&answered));
        }
    }
    println!("{} samples, {differ} differ from the reference", rules.len());
    Ok(if differ == 0 && !rules.is_empty() { ExitCode::SUCCESS } else { ExitCode::FAILURE })
}

fn rules_in(folder: &Path) -> io::Result<Vec<PathBuf>> {
    let mut rules = Vec::new();
    for entry in fs::read_dir(folder)? {
        let path = entry?.path();
        if path.extension().is_some_and(|extension| extension == "rule") {
            rules.push(path);
        }
    }
    rules.sort();
    Ok(rules)
}
