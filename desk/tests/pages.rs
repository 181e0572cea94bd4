//! Every page is well-formed and needs nothing from outside the file.

mod cases;
mod wellformed;

use desk::report::page;

/// Checks the page of each subject, with and without Graphviz's program.
fn checked(subjects: Vec<cases::Subject>) {
    for subject in subjects {
        for dot in [None, Some("dot")] {
            let page = page(&subject.case, &subject.name, &subject.file, dot);
            wellformed::check(&page).unwrap_or_else(|error| panic!("{}, {dot:?}: {error}", subject.name));
            assert!(page.contains("<section id=\"simulator\">"), "{}: the simulator is there", subject.name);
        }
    }
}

#[test]
fn examples() {
    checked(cases::examples());
}

#[test]
fn stations() {
    checked(cases::stations());
}

#[test]
fn sizes() {
    checked(cases::sizes());
}
