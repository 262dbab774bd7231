//! docs/HOST.md names what there is.

use m68k_host::{Kind, Record};

const MANUAL: &str = include_str!("../../docs/HOST.md");

/// The names of the fields, as the derived text has them.
fn fields() -> Vec<String> {
    let text = format!("{:#?}", Record::fresh(Kind::M68000));
    let lines = text.lines().filter_map(|line| line.strip_prefix("    "));
    let starts = lines.filter(|line| !line.starts_with([' ', ']', ')', '}']));
    starts.map(|line| line.split(':').next().unwrap().to_string()).collect()
}

/// Every field of the record is among those to copy, and the counts are right.
#[test]
fn the_manual_names_every_field() {
    let section = MANUAL.split("## ").find(|part| part.starts_with("Fields to copy")).unwrap();
    let (public, private) = section.split_once("Six are private").unwrap();
    let named = |text: &str, field: &String| text.contains(&format!("`{field}`"));
    let fields = fields();
    let in_public = fields.iter().filter(|field| named(public, field)).count();
    let table = private.split("The domain").next().unwrap();
    let in_private = fields.iter().filter(|field| named(table, field)).count();
    assert_eq!((fields.len(), in_public, in_private), (37, 31, 6));
    assert!(public.contains("37 fields") && public.contains("31 of them"));
}

/// Every example is named.
#[test]
fn the_manual_names_every_example() {
    let examples = std::fs::read_dir(concat!(env!("CARGO_MANIFEST_DIR"), "/examples")).unwrap();
    for path in examples.map(|entry| entry.unwrap().path()) {
        let name = path.file_stem().unwrap().to_str().unwrap();
        assert!(
            MANUAL.contains(&format!("`{name}`")) || MANUAL.contains(&format!("`{name}.c`")),
            "{name}"
        );
    }
}
