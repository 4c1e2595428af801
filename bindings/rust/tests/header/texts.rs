//! The numbers of `labrador.h` and the texts of `labrador_texts.h` are those of the table.

use labrador::meaning::{meaning, MEANINGS};

use crate::c;

/// The enumerators of the header, each with its number.
fn numbers() -> Vec<(String, u32)> {
    let text = c::header();
    let (_, behind) = text.split_once("enum labrador_number {").expect("the numbers");
    let (inside, _) = behind.split_once("};").expect("their end");
    let one = |line: &str| {
        let (name, number) = line.split_once(" = ")?;
        let digits: String = number.chars().take_while(char::is_ascii_digit).collect();
        Some((name.trim().to_string(), digits.parse().expect("a number")))
    };
    inside.lines().filter_map(one).collect()
}

#[test]
fn each_number_has_an_enumerator_of_its_kind() {
    let of_header = numbers();
    assert_eq!(of_header[0], ("LABRADOR_OK".into(), 0));
    assert_eq!(of_header.len(), 1 + MEANINGS.len());
    for ((name, number), m) in of_header[1..].iter().zip(MEANINGS) {
        assert_eq!(*number, m.number, "{name}");
        let kind = if m.is_check() { "LABRADOR_CHECK_" } else { "LABRADOR_REFUSAL_" };
        assert!(name.starts_with(kind), "{name}");
    }
}

#[test]
fn each_text_is_the_tables() {
    let statements = r#"for (uint32_t number = 0; number < 100; number++) {
    const labrador_meaning *m = labrador_meaning_of(number);
    if (m != NULL)
        printf("%u|%s|%s|%s|%s|%s\n", m->number, labrador_text(number), m->text, m->cause, m->place, m->follows);
    else
        printf("%u|%s\n", number, labrador_text(number));
}
printf("%s\n", labrador_text(LABRADOR_UNUSED));
"#;
    let row = |number| match (number, meaning(number)) {
        (_, Some(m)) => format!("{number}|{}|{}|{}|{}|{}\n", m.short, m.short, m.cause, m.place, m.follows),
        (0, None) => "0|accepted, or made\n".into(),
        _ => format!("{number}|no answer has this number\n"),
    };
    let expected: String = (0..100).map(row).collect();
    assert_eq!(c::printed("texts", statements), expected + "the verdict is unused\n");
}
