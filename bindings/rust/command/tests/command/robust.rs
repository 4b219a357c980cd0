//! Input of any bytes gets an answer.

use cases::Random;

use crate::json::objects;
use crate::running::{run_on, Ran};

/// Every subcommand that reads a file.
const READERS: [&[&str]; 11] = [
    &["complete", "-"],
    &["complete", "-", "--json"],
    &["complete", "-", "--html"],
    &["book", "-"],
    &["book", "-", "--json"],
    &["check", "-"],
    &["check", "-", "--json"],
    &["swift", "-", "--json"],
    &["swift", "--read", "-", "--json"],
    &["register", "-", "--amount", "1.00", "--json"],
    &["leave", "-", "--balance", "1.00", "--json"],
];

/// Runs all of them; what is JSON reads, and a page is whole.
fn all(input: &[u8]) -> Vec<Ran> {
    let ran = READERS.iter().map(|arguments| {
        let ran = run_on(arguments, input);
        if arguments.contains(&"--json") && !ran.out.is_empty() {
            objects(&ran.out);
        }
        if arguments.contains(&"--html") {
            crate::pages::well_formed(&ran.out);
        }
        assert!(ran.status == 2 || !ran.out.is_empty(), "{arguments:?}");
        ran
    });
    ran.collect()
}

#[test]
fn odd_files() {
    let long = [b"a 14 1 ".as_slice(), &[b'7'; 3_000_000]].concat();
    let name = vec![b'n'; 3_000_000];
    let blanks = vec![b' '; 1_000_000];
    let line_ends = vec![b'\n'; 300_000];
    let returns = b"\r\n".repeat(100_000);
    for input in [
        &b""[..],
        b"\n",
        b"\r",
        b"\r\n\r\n",
        b"\xEF\xBB\xBF",
        b"\xEF\xBB",
        b"\xEF\xBB\xBF\xEF\xBB\xBF14 1 1",
        b"\0",
        b" ",
        b"#",
        b"\xC2\xA0",
        b"\xC2\xA0#",
        b"14",
        b"14 ",
        b"14 1 \xFF\n",
        b"14 1 004525987",
        b"a 14 1 004525987\r",
        b"a\r\na \r\n a\r\n",
        b"client",
        b"client client client",
        b"781023456779 1.00",
        b"1 1 1.00",
        b":26T:S01\n",
        &long,
        &name,
        &blanks,
        &line_ends,
        &returns,
    ] {
        all(input);
    }
}

/// Bytes by chance, and pieces of right lines by chance.
#[test]
fn generated_files() {
    let pieces: [&[u8]; 32] = [
        b"14",
        b"15",
        b"17",
        b"101",
        b"108",
        b"109",
        b"1",
        b"2",
        b"4294967295",
        b"4294967296",
        b"0",
        b" ",
        b" ",
        b" ",
        b"  ",
        b"\n",
        b"\n",
        b"\r\n",
        b"\r",
        b"client",
        b"#",
        b"x",
        b"\0",
        b"\xFF",
        b"\xD0\x90",
        b"\xD0",
        b"\xF0\x9F\x98\x80",
        b"<b>",
        b"&",
        b"\"\\",
        b"\xEF\xBB\xBF",
        b"004525987",
    ];
    let mut random = Random::new(5);
    for round in 0..60 {
        let mut input = Vec::new();
        let length = random.pick(&[0, 1, 3, 20, 300, 5_000]);
        for _ in 0..length {
            match round % 3 {
                0 => input.push(random.byte()),
                1 => input.extend(random.pick(&pieces)),
                _ => {
                    let field = random.pick(&[&b"14"[..], b"17", b"101", b"16"]);
                    for piece in [&b"n "[..], field, b" 1 ", random.pick(&pieces), b"\n"] {
                        input.extend(piece);
                    }
                }
            }
        }
        all(&input);
    }
}
