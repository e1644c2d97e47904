//! The documents: docs/DEMANDS.md passes docs/check_demands.py, and no relative link of README.md or docs/ leads nowhere.
use std::fs;
use std::io::ErrorKind;
use std::path::{Path, PathBuf};
use std::process::Command;

fn top() -> PathBuf {
    Path::new(env!("CARGO_MANIFEST_DIR")).join("../..")
}

#[test]
fn demands() {
    let checked = Command::new("python3").arg("docs/check_demands.py").current_dir(top()).output();
    let checked = match checked {
        Err(error) if error.kind() == ErrorKind::NotFound => {
            eprintln!("docs/DEMANDS.md is not checked: there is no python3");
            return;
        }
        checked => checked.unwrap(),
    };
    let printed = [checked.stdout, checked.stderr].concat();
    assert!(checked.status.success(), "{}", String::from_utf8_lossy(&printed));
}

/// Where the links of a line lead: `[text](target)`, or the target that a line `[key]: target` gives.
fn targets(line: &str) -> Vec<&str> {
    let given = line.strip_prefix('[').and_then(|line| line.split_once("]: "));
    let inline = line.split("](").skip(1).filter_map(|rest| rest.split_once(')'));
    given.map(|(_, target)| target).into_iter().chain(inline.map(|(target, _)| target)).collect()
}

#[test]
fn links() {
    let mut pages: Vec<_> = fs::read_dir(top().join("docs"))
        .unwrap()
        .map(|entry| entry.unwrap().path())
        .filter(|path| path.extension().is_some_and(|extension| extension == "md"))
        .collect();
    pages.push(top().join("README.md"));
    let mut count = 0;
    for page in pages {
        let text = fs::read_to_string(&page).unwrap();
        // every other part lies between two fences of code
        for line in text.split("```").step_by(2).flat_map(str::lines) {
            for target in targets(line) {
                let file = target.split('#').next().unwrap();
                if file.is_empty() || file.contains("://") {
                    continue;
                }
                assert!(page.with_file_name(file).exists(), "{}: {target} leads nowhere", page.display());
                count += 1;
            }
        }
    }
    assert!(count > 0, "no links");
}
