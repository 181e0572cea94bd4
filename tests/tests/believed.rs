//! The definitions that a reader has to believe stand in crates/*/specs, and those that only the private
//! functions and the proofs use in specs/inner. No believed file uses an inner one, and every file is in the list
//! of its folder, after those that it uses.

use std::collections::BTreeSet;
use std::fs;
use std::path::{Path, PathBuf};

/// The folders `specs` of the crates.
fn specs() -> Vec<PathBuf> {
    let crates = Path::new(env!("CARGO_MANIFEST_DIR")).join("../crates");
    let folders = fs::read_dir(crates).unwrap().map(|entry| entry.unwrap().path().join("specs"));
    folders.filter(|folder| folder.is_dir()).collect()
}

/// The names of a folder's files of definitions.
fn names(folder: &Path) -> BTreeSet<String> {
    let files = fs::read_dir(folder).into_iter().flatten().map(|entry| entry.unwrap().path());
    let files = files.filter(|path| path.extension().is_some_and(|end| end == "antt"));
    files.map(|path| path.file_stem().unwrap().to_str().unwrap().into()).collect()
}

/// The modules that a root declares.
fn declared(source: &str) -> BTreeSet<String> {
    source.lines().filter_map(|line| line.strip_prefix("pub mod ")).map(str::to_string).collect()
}

/// The lines of a source, its comments left out, that name an inner module.
fn inner_uses(source: &str) -> Vec<&str> {
    let lines = source.lines().map(|line| line.split("--").next().unwrap());
    lines.filter(|line| line.contains(".inner.") || line.contains(".inner ")).collect()
}

#[test]
fn no_believed_file_uses_an_inner_one() {
    for folder in specs() {
        for name in names(&folder) {
            let source = fs::read_to_string(folder.join(format!("{name}.antt"))).unwrap();
            assert_eq!(inner_uses(&source), Vec::<&str>::new(), "{}: {name}", folder.display());
        }
    }
}

#[test]
fn every_file_is_in_its_list() {
    for folder in specs() {
        let mut believed = names(&folder);
        assert!(believed.remove("Lib"), "{}", folder.display());
        assert_eq!(declared(&fs::read_to_string(folder.join("Lib.antt")).unwrap()), believed, "{}", folder.display());
        let inner = names(&folder.join("inner"));
        let list = fs::read_to_string(folder.join("inner.antt")).unwrap_or_default();
        assert_eq!(declared(&list), inner, "{}: inner", folder.display());
    }
    assert!(specs().iter().map(|folder| names(&folder.join("inner")).len()).sum::<usize>() > 10);
}

/// The files that a source of a crate uses of that crate's believed ones.
fn own_uses(own: &str, source: &str) -> BTreeSet<String> {
    let path = format!("Rattle.{own}.specs.");
    let rest = source.split(&path).skip(1);
    let names = rest.map(|rest| rest.split(|c: char| !c.is_alphanumeric()).next().unwrap().to_string());
    names.filter(|name| name != "declared" && name != "inner").collect()
}

/// The first use that stands before what it uses, in a list of a crate's files with their sources.
fn too_early<'a>(own: &str, files: &[(&'a str, String)]) -> Option<(&'a str, String)> {
    let mut before = BTreeSet::new();
    for (name, source) in files {
        if let Some(used) = own_uses(own, source).into_iter().find(|used| !before.contains(used)) {
            return Some((name, used));
        }
        before.insert(name.to_string());
    }
    None
}

#[test]
fn the_lists_are_in_the_order_of_reading() {
    let mut uses = 0;
    for folder in specs() {
        let own = folder.parent().and_then(Path::file_name).unwrap().to_str().unwrap();
        let list = fs::read_to_string(folder.join("Lib.antt")).unwrap();
        let names = list.lines().filter_map(|line| line.strip_prefix("pub mod ")).filter(|name| *name != "inner");
        let source = |name: &str| fs::read_to_string(folder.join(format!("{name}.antt"))).unwrap();
        let files: Vec<(&str, String)> = names.map(|name| (name, source(name))).collect();
        assert_eq!(too_early(own, &files), None, "{}", folder.display());
        uses += files.iter().map(|(_, source)| own_uses(own, source).len()).sum::<usize>();
    }
    assert!(uses > 50, "{uses}");
    let wrong = [("Play", "use Rattle.plays.specs.Arena.{Arena}\n".to_string()), ("Arena", String::new())];
    assert_eq!(too_early("plays", &wrong), Some(("Play", "Arena".to_string())));
    assert_eq!(too_early("game", &wrong), None);
}

/// The crates by their letters in docs/PROMISES.md.
const CRATES: [(&str, &str); 5] =
    [("R", "reader"), ("M", "machine"), ("A", "automaton"), ("P", "plays"), ("G", "game")];

/// The believed files that a source uses, of any crate, as crate and name.
fn all_uses(source: &str) -> BTreeSet<(String, String)> {
    let mut found = BTreeSet::new();
    for part in source.split("Rattle.").skip(1) {
        let Some((name, rest)) = part.split_once('.') else { continue };
        if name == "std" {
            continue;
        }
        let rest = rest.strip_prefix("specs.").unwrap();
        let file = rest.split(|c: char| !c.is_alphanumeric()).next().unwrap();
        if file != "declared" {
            found.insert((name.to_string(), file.to_string()));
        }
    }
    found
}

#[test]
fn the_guide_is_in_the_order_of_reading() {
    let crates = Path::new(env!("CARGO_MANIFEST_DIR")).join("../crates");
    let guide = fs::read_to_string(crates.join("../docs/PROMISES.md")).unwrap();
    let (_, guide) = guide.split_once("| What | Where |").unwrap();
    let rows = guide.lines().skip(2).map_while(|line| line.strip_prefix("| "));
    let mut before: BTreeSet<(String, String)> = BTreeSet::new();
    let mut seen = 0;
    for files in rows.map(|row| row.split(" | ").nth(1).unwrap().trim_end_matches(" |")) {
        for part in files.split("; ") {
            let (letter, names) = part.split_once(' ').unwrap();
            let own = CRATES.iter().find(|(known, _)| *known == letter).unwrap().1;
            for name in
                names.split(", ").map(|name| name.split(" (").next().unwrap()).filter(|name| !name.starts_with('`'))
            {
                let source = fs::read_to_string(crates.join(own).join("specs").join(format!("{name}.antt"))).unwrap();
                let uses = all_uses(&source);
                seen += uses.len();
                let early: Vec<_> = uses.difference(&before).cloned().collect();
                assert_eq!(early, [], "{own}: {name}");
                before.insert((own.to_string(), name.to_string()));
            }
        }
    }
    assert!(before.len() > 25, "{}", before.len());
    assert!(seen > 50, "{seen}");
}

#[test]
fn a_use_of_an_inner_file_is_seen() {
    let names = "-- a head\nuse Rattle.plays.specs.inner.Rank.{judged}\n";
    let whole = "use Rattle.plays.specs.inner.Rank as rank\n";
    let inline = "f = Rattle.plays.specs.inner.Rank.judged\n";
    for source in [names, whole, inline] {
        assert_eq!(inner_uses(source).len(), 1, "{source}");
    }
    assert!(inner_uses("-- see specs.inner.Rank\nuse Rattle.plays.specs.Arena.{Arena}\n").is_empty());
}
