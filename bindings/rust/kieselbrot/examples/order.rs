//! A small order: it is given, completed and printed, with the names of its fields; then what
//! stands in the way of another one is told. `cargo run --release -p kieselbrot --example order`

use kieselbrot::{windows1251, words, Date, Draft, Party, Refusal, Terms};

const ORDER: [(u8, &[u8]); 8] = [
    (14, b"004525987"),
    (15, b"40102810845370000004"),
    (17, b"03100643000000014800"),
    (60, b"7701569743"),
    (61, b"6730054024"),
    (102, b"770301001"),
    (103, b"772801001"),
    (104, b"18201061201010000510"),
];

fn main() -> Result<(), Refusal> {
    let [major, minor, patch] = kieselbrot::version();
    println!("version {major}.{minor}.{patch}");

    let mut draft = Draft::new();
    for (field, text) in ORDER {
        draft.give(Party::ADVISER, field, 1, text)?;
    }
    let terms = Terms::given(Date(20240115));
    let (sheet, completed) = draft.complete(terms)?;
    for (field, text) in sheet.texts() {
        let name = words::field(field).unwrap_or_default();
        let is_proposed = completed.filled().any(|filled| filled == field);
        let proposed = if is_proposed { " (proposed)" } else { "" };
        println!("{field} {name}: {}{proposed}", windows1251::text(text));
    }

    draft.take_up(&sheet, [101])?;
    draft.give(Party::CLIENT, 104, 2, b"0")?;
    match draft.complete(terms) {
        Ok(_) => println!("completed"),
        Err(refusal) => println!(
            "{refusal} ({}):\n{}",
            refusal.number(),
            words::explanation(&draft, terms)
        ),
    }
    Ok(())
}
