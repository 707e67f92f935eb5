//! The samples: each call on each file answers what their maker says, and the filled sheets are what a fill makes.

use oracle::answer::{answer_of, answer_of_part};
use oracle::{answer, check, field_text, fill, list, read_docinfo, Refusal};
use std::path::{Path, PathBuf};

fn folder() -> PathBuf {
    Path::new(env!("CARGO_MANIFEST_DIR")).join("../../samples")
}

fn sample(name: &str) -> Vec<u8> {
    std::fs::read(folder().join(name)).unwrap_or_else(|error| panic!("{name}: {error}"))
}

fn words(name: &str) -> String {
    String::from_utf8(sample(name)).unwrap()
}

fn filled(section: &[u8], id: u32, value: &str) -> Result<Vec<u8>, Refusal> {
    let value: Vec<u8> = value.encode_utf16().flat_map(u16::to_le_bytes).collect();
    let mut sheet = vec![0; section.len() + value.len() + 4];
    let length = fill(section, id, &value, &mut sheet)?;
    sheet.truncate(length);
    Ok(sheet)
}

#[test]
fn every_answer() {
    let expected = words("expected.txt");
    let mut numbers = Vec::new();
    for line in expected.lines().filter(|line| !line.starts_with('#')) {
        let [name, call, id, number, place, further] =
            line.split(' ').collect::<Vec<_>>()[..].try_into().unwrap();
        let stream = sample(name);
        let found = match call {
            "check" => answer_of(check(&stream)),
            "field" => answer_of_part(field_text(&stream, id.parse().unwrap())),
            "fill" => answer_of(filled(&stream, id.parse().unwrap(), "1").map(|sheet| sheet.len())),
            "docinfo" => answer_of(read_docinfo(&stream, usize::MAX).map(|rows| rows.len())),
            _ => panic!("{line}"),
        };
        let number: u8 = number.parse().unwrap();
        let asked = answer(number, place.parse().unwrap(), further.parse().unwrap());
        assert_eq!(found, asked, "{line}");
        numbers.push(number);
    }
    let lacking: Vec<u8> = (2..=18)
        .chain(22..=24)
        .filter(|n| *n != 7 && !numbers.contains(n))
        .collect();
    assert_eq!(lacking, [], "numbers that no sample shows");
}

#[test]
fn every_file_is_expected() {
    let expected = words("expected.txt");
    for part in ["", "damaged/"] {
        for entry in std::fs::read_dir(folder().join(part)).unwrap() {
            let name = format!(
                "{part}{}",
                entry.unwrap().file_name().into_string().unwrap()
            );
            if name.ends_with(".section") || name.ends_with(".docinfo") {
                assert!(expected.contains(&format!("\n{name} ")), "{name}");
            }
        }
    }
}

#[test]
fn fills_make_the_filled_sheets() {
    let mut sheet = sample("water.section");
    for (id, value) in [(2001, "2024. 6. 14."), (2002, "0.6"), (2003, "0.185")] {
        sheet = filled(&sheet, id, value).unwrap();
    }
    assert_eq!(sheet, sample("water-filled.section"));
    let long = sample("long.section");
    let sheet = filled(&long, 2005, "10").unwrap();
    assert_eq!(sheet, sample("long-filled.section"));
    assert_eq!(sheet.len(), long.len() + 6);
}

#[test]
fn listings() {
    for name in ["water", "water-filled", "long", "long-filled", "nested"] {
        let section = sample(&format!("{name}.section"));
        assert_eq!(list(&section), words(&format!("{name}.listing")), "{name}");
    }
}
