//! What documents say of nodes: the tests that docs/ATTACKS.md names are there, and the sentences and counts that README.md has
//! are those that a node says.

mod common;

use common::{file, in_repository};
use masttomato::Why;
use masttomato::engine::{Engine, Flaw, Life, Settings};
use masttomato::space::SpaceId;
use std::time::Duration;

// The rows of the tables: what each has in its last column.
fn last_columns(text: &str) -> Vec<(&str, &str)> {
    let rows = text.lines().filter(|line| line.starts_with("| ") && !line.starts_with("| What"));
    let columns = rows.filter_map(|row| row.trim_end_matches(" |").rsplit_once(" | "));
    columns.collect()
}

// What stands in code style.
fn codes(text: &str) -> impl Iterator<Item = &str> {
    text.split('`').skip(1).step_by(2)
}

// A file below tests, or one of the sources that has tests of its own.
fn text_of(name: &str) -> String {
    let folder = "hosts/rust/masttomato";
    let paths = [
        format!("{folder}/tests/{name}.rs"),
        format!("{folder}/tests/{name}/main.rs"),
        format!("{folder}/src/{name}.rs"),
    ];
    let path = paths.iter().find(|path| in_repository(path).is_file());
    file(path.unwrap_or_else(|| panic!("there is no file of tests {name}")))
}

fn is_test(text: &str, name: &str) -> bool {
    let head = format!("fn {name}(");
    let lines: Vec<&str> = text.lines().map(str::trim).collect();
    let place = lines.iter().position(|line| line.starts_with(&head));
    place.is_some_and(|place| place > 0 && lines[place - 1] == "#[test]")
}

#[test]
fn each_attack_names_tests_that_are_there() {
    let text = file("docs/ATTACKS.md");
    let rows = last_columns(&text);
    assert!(rows.len() > 40, "{}", rows.len());
    for (attack, tests) in rows {
        let mut count = 0;
        for code in codes(tests) {
            let (name, test) = code.split_once(' ').unwrap_or_else(|| panic!("{code}"));
            assert!(is_test(&text_of(name), test), "there is no test {code}: {attack}");
            count += 1;
        }
        assert!(count > 0, "no test: {attack}");
    }
}

// The part of README.md below a heading.
fn part<'a>(text: &'a str, heading: &str) -> &'a str {
    let (_, part) = text.split_once(heading).unwrap_or_else(|| panic!("no part {heading}"));
    part.split_once("\n## ").map_or(part, |(part, _)| part)
}

#[test]
fn whoever_is_turned_away_hears_what_is_written() {
    let readme = file("hosts/rust/README.md");
    let said = part(&readme, "\n## Who may come in\n");
    let flaws = [
        Flaw::NoTls,
        Flaw::Missing,
        Flaw::OtherAuthority,
        Flaw::Expired,
        Flaw::NotYet,
        Flaw::OtherName,
        Flaw::Unfit,
        Flaw::Late,
    ];
    for flaw in flaws {
        let sentence = Why::Certificate(flaw).to_string();
        assert!(said.contains(&sentence), "{sentence}");
    }
}

// Of those that are to be watched a report has each, under its name.
#[test]
fn the_counts_to_watch_are_in_a_report() {
    let readme = file("hosts/rust/README.md");
    let said = part(&readme, "\n## What who runs a node sees\n");
    let (_, table) = said.split_once("\nSix to watch:\n").expect("six to watch");
    let (rows, rest) = table.trim_start().split_once("\n\n").expect("a table");
    let (two, _) = rest.split_once("\n\n").expect("and two that should stay 0");
    let rows = rows.lines().skip(2).flat_map(|row| codes(row.split(" | ").next().unwrap_or("")));
    let names: Vec<&str> = rows.chain(codes(two)).collect();
    assert_eq!(names.len(), 7 + 2, "{names:?}");
    let [one, two] = [1, 2].map(|number| SpaceId::new(number).expect("1 to 32"));
    let mut engine = Engine::new(Settings::new(one, two), Duration::ZERO).expect("memory");
    engine.connected(two, Life::only(2), Duration::ZERO).expect("its only life");
    let report = engine.report(Duration::ZERO).to_string();
    for name in names {
        let head = format!("\nmasttomato_{name}{{");
        assert!(report.contains(&head), "{name}: {report}");
    }
}
