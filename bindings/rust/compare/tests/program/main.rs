//! The program against the second implementation, byte for byte.

mod running;

use std::collections::BTreeSet;
use std::env;
use std::fs;
use std::io::Read;
use std::process::{self, Command, Stdio};
use std::sync::mpsc;
use std::thread;
use std::time::Duration;

use cases::{message, message_2, messages, Random, Texts, ADVISER, CLIENT};
use reference::{read, report, Refusal};

use running::{path, run, run_in_pieces, run_with, write, INPUT_MAX};

/// The program's report, after a comparison with the second implementation.
#[track_caller]
fn compared(input: &[u8]) -> Vec<u8> {
    let output = run(input);
    same(&output, input);
    output
}

#[track_caller]
fn same(output: &[u8], input: &[u8]) {
    let shown = |bytes: &[u8]| bytes.escape_ascii().to_string();
    assert_eq!(
        shown(output),
        shown(&report(input)),
        "the input {}",
        shown(input)
    );
}

/// Messages of all sizes, exactly so many bytes.
fn filled(size: usize) -> Vec<u8> {
    let mut input = Texts::s().messages(1);
    let mut length = 0;
    // Room is left for the last two, which share what remains.
    while input.len() + 66 < size {
        input.extend(message(105, 1 + length as u32, &[b'7'; 25][..length]));
        length = (length + 1) % 26;
    }
    let rest = size - input.len();
    input.extend(message(105, 1, &[b'8'; 25][..rest / 2 - 8]));
    input.extend(message(105, 1, &[b'9'; 25][..rest - rest / 2 - 8]));
    assert_eq!(input.len(), size);
    input
}

#[test]
fn short_inputs() {
    assert_eq!(compared(b""), b"end 8 14 1\n");
    for byte in 0..=u8::MAX {
        assert_eq!(compared(&[byte]), b"1 2\nend 8 14 1\n");
    }
    let worked = b"\x00\x0A\x01\x0E\x00\x00\x00\x010045";
    assert_eq!(compared(worked), b"1 newer\nend 8 14 1\n");
}

/// Streams whose version bytes are all 1, each with what the program wrote of it before R-8:
/// a length in two bytes, big-endian, and so many bytes, for both.
const BEFORE_R8: &[u8] = include_bytes!("version-1.streams");

#[test]
fn streams_of_version_1_print_as_before_r8() {
    let mut rest = BEFORE_R8;
    let mut next = || {
        let (length, behind) = rest.split_first_chunk()?;
        let (part, behind) = behind.split_at(usize::from(u16::from_be_bytes(*length)));
        rest = behind;
        Some(part)
    };
    let mut streams = 0;
    while let (Some(input), Some(before)) = (next(), next()) {
        assert_eq!(compared(input), before);
        streams += 1;
    }
    assert_eq!(streams, 54);
}

#[test]
fn a_full_input() {
    let output = compared(&filled(INPUT_MAX));
    assert!(!output.windows(3).any(|bytes| bytes == b" 2\n"));
}

#[test]
fn only_the_first_32_768_bytes_count() {
    let mut behind = [filled(INPUT_MAX), Texts::BLANK.messages(9).repeat(61)].concat();
    behind.truncate(40_000);
    assert_eq!(compared(&behind), run(&behind[..INPUT_MAX]));
    // 33 bytes each: the limit cuts one.
    let mut cut = message(101, 1, &[b'1'; 25]).repeat(1213);
    cut.truncate(40_000);
    let output = compared(&cut);
    assert_eq!(output, run(&cut[..INPUT_MAX]));
    assert!(output.ends_with(b"\n992 same\n993 2\nend 8 14 1\n"));
}

#[test]
fn a_message_cut_at_the_end() {
    let whole = [Texts::s().messages(1), message(108, 2, b"17")].concat();
    for missing in 1..10 {
        let output = compared(&whole[..whole.len() - missing]);
        let text = String::from_utf8(output).expect("ASCII");
        assert!(text.contains("\n15 newer\n16 2\nend ok 1\n14 004525987\n"));
    }
}

/// As many messages as fit, of 8 bytes each.
fn most_messages() -> Vec<u8> {
    let input = message(22, 1, b"").repeat(4096);
    assert_eq!(input.len(), INPUT_MAX);
    input
}

#[test]
fn the_largest_number_of_messages() {
    let output = compared(&most_messages());
    assert!(output.starts_with(b"1 newer\n2 same\n"));
    assert!(output.ends_with(b"\n4095 same\n4096 same\nend 8 14 1\n"));
}

/// The longest lines: every message is newer.
#[test]
fn the_longest_report() {
    let s = Texts::s().messages(5000);
    let first = (1..).map(|revision| message(22, revision, b""));
    let room = (INPUT_MAX - s.len()) / 8;
    let mut input: Vec<u8> = first.take(room).flatten().collect();
    input.extend(s);
    let output = compared(&input);
    assert!(output.ends_with(b"\n108 0\n109 0\n"));
    assert!(output.len() > 40_000);
}

#[test]
fn a_stream_of_refusals() {
    let mut other_version = message(101, 2, b"08");
    other_version[2] = 3;
    let refused = [
        other_version,
        message(16, 2, b"08"),
        message(101, 0, b"08"),
        message(101, 1, b"08"),
        message_2(3, 101, 2, b"08"),
    ]
    .concat();
    let input = [Texts::s().messages(1), refused.repeat(600)].concat();
    let output = compared(&input);
    let text = String::from_utf8(output).expect("ASCII");
    assert!(text.contains("\n15 newer\n16 3\n17 4\n18 5\n19 6\n20 13\n21 3\n"));
    assert!(text.contains("\n3015 13\nend ok 1\n"));
}

/// The same document of both parties, in both orders.
#[test]
fn both_parties() {
    let client = message_2(CLIENT, 108, 2, b"17");
    for adviser in [message(108, 2, b"18"), message_2(ADVISER, 108, 2, b"18")] {
        for (list, answer) in [
            ([&client, &adviser], "newer"),
            ([&adviser, &client], "older"),
        ] {
            let list: Vec<u8> = list.into_iter().flatten().copied().collect();
            let output = compared(&[Texts::s().messages(1), list].concat());
            let text = String::from_utf8(output).expect("ASCII");
            assert!(text.contains(&format!("\n16 newer\n17 {answer}\nend ok 1\n")));
            assert!(text.contains("\n108 18\n"));
        }
    }
}

/// A 2 that is tested after 3 ends the reading; a 3 does not, though its L is 32.
#[test]
fn a_length_that_the_version_does_not_allow() {
    let behind = message(108, 2, b"17");
    let told = |refused: &[u8]| {
        let input = [&Texts::s().messages(1)[..], refused, &behind].concat();
        let text = String::from_utf8(compared(&input)).expect("ASCII");
        let lines: Vec<&str> = text.lines().collect();
        lines[15..17].join(", ")
    };
    let mut l_32 = message(104, 2, &[b'1'; 26]);
    let mut l_6 = message(16, 0, b"");
    assert_eq!(told(&l_32), "16 2, end ok 1");
    (l_32[2], l_6[2]) = (3, 3);
    assert_eq!(told(&l_32), "16 3, 17 newer");
    assert_eq!(told(&l_6), "16 3, 17 newer");
    l_6[2] = 2;
    assert_eq!(told(&l_6), "16 2, end ok 1");
    let longest = message_2(CLIENT, 105, 2, &[b'1'; 25]);
    assert_eq!(told(&longest), "16 newer, 17 newer");
}

/// As many of the longest messages as fit, and the beginning of another.
#[test]
fn a_full_input_of_version_2() {
    let mut input = message_2(CLIENT, 101, 1, &[b'1'; 25]).repeat(964);
    input.truncate(INPUT_MAX);
    let output = compared(&input);
    assert!(output.starts_with(b"1 newer\n2 same\n"));
    assert!(output.ends_with(b"\n963 same\n964 2\nend 8 14 1\n"));
}

#[test]
fn cyrillic_letters() {
    let texts = Texts::s()
        .with(101, b"06")
        .with(106, b"\xD2\xC4")
        .with(107, b"10000000")
        .with(109, b"29.02.2024");
    for byte in 192..=255 {
        let document = [byte, b'/', byte];
        let output = compared(&texts.with(108, &document).messages(1));
        let line = [b"\n106 \xD2\xC4\n107 10000000\n108 ", &document[..], b"\n"].concat();
        assert!(output.windows(line.len()).any(|bytes| bytes == line));
    }
}

/// What the lines say up to the end: answers to messages, and the end, for a
/// broken rule with what it returns.
fn told(output: &[u8]) -> BTreeSet<String> {
    let text: String = output.iter().copied().map(char::from).collect();
    let mut told = BTreeSet::new();
    for line in text.lines() {
        let items: Vec<&str> = line.split(' ').collect();
        match items[..] {
            ["end", "8", ..] => return with(told, line.into()),
            ["end", number, ..] => return with(told, format!("end {number}")),
            [_, answer] => told = with(told, answer.into()),
            _ => panic!("{line}"),
        }
    }
    panic!("no end: {text}");
}

fn with(mut set: BTreeSet<String>, item: String) -> BTreeSet<String> {
    set.insert(item);
    set
}

const TOLD: [&str; 15] = [
    "13",
    "2",
    "3",
    "4",
    "5",
    "6",
    "end 10",
    "end 8 14 1",
    "end 8 15 2",
    "end 8 17 3",
    "end 9",
    "end ok",
    "newer",
    "older",
    "same",
];

/// A generated input: a list of messages; or several, whose reading does not stop;
/// or one with bytes changed.
fn generated(random: &mut Random) -> Vec<u8> {
    let mut input = messages(random).concat();
    match random.below(10) {
        0 => {
            let mut lists = Vec::new();
            (0..random.below(80)).for_each(|_| lists.extend(messages(random)));
            lists.retain(|bytes| read(bytes) != Err(Refusal::Length));
            lists.concat()
        }
        1 | 2 => {
            for _ in 0..=random.below(3) {
                let place = random.below(input.len());
                input[place] = random.byte();
            }
            input
        }
        _ => input,
    }
}

#[test]
fn generated_streams() {
    let mut random = Random::new(107);
    let mut reached = BTreeSet::new();
    for _ in 0..4000 {
        reached.extend(told(&compared(&generated(&mut random))));
    }
    let reached: Vec<&str> = reached.iter().map(String::as_str).collect();
    assert_eq!(reached, TOLD);
}

#[test]
fn input_in_pieces() {
    let input = [Texts::s().messages(1), message(101, 2, b"08")].concat();
    let pause = Duration::from_millis(1);
    let bytes = vec![1; input.len()];
    same(&run_in_pieces(&input, bytes, pause), &input);
    let mut random = Random::new(1);
    for _ in 0..20 {
        let input = generated(&mut random);
        let sizes: Vec<usize> = (0..30).map(|_| 1 + random.below(40)).collect();
        same(&run_in_pieces(&input, sizes, pause), &input);
    }
    let full = filled(INPUT_MAX);
    same(&run_in_pieces(&full, vec![1000; 33], pause), &full);
}

/// A full input is reported on at once, though its end hasn't come. Then the program waits
/// for the end, to say whether input was left unread.
#[test]
fn a_full_input_needs_no_end() {
    let input = filled(INPUT_MAX);
    let report = run(&input);
    let mut child = Command::new(path())
        .stdin(Stdio::piped())
        .stdout(Stdio::piped())
        .spawn()
        .expect("the program runs");
    let mut stdin = child.stdin.take().expect("standard input is a pipe");
    let mut stdout = child.stdout.take().expect("standard output is a pipe");
    let (ended, end) = mpsc::channel();
    let mut output = vec![0; report.len()];
    thread::scope(|scope| {
        let input = &input;
        let in_time = scope.spawn(move || {
            write(&mut stdin, input);
            let in_time = end.recv_timeout(Duration::from_secs(20)).is_ok();
            drop(stdin);
            in_time
        });
        stdout.read_exact(&mut output).expect("the whole report");
        let _ = ended.send(());
        assert!(in_time.join().expect("a writer"), "it waits for the end");
    });
    assert!(child.wait().expect("it ends").success());
    same(&output, &input);
}

/// Nothing can be written to `/dev/full`.
#[test]
fn a_report_that_is_not_written_is_told() {
    let Ok(full) = fs::File::options().write(true).open("/dev/full") else {
        println!("skipped: there is no /dev/full");
        return;
    };
    let output = Command::new(path())
        .stdin(Stdio::null())
        .stdout(full)
        .stderr(Stdio::piped())
        .output()
        .expect("the program runs");
    let told = String::from_utf8_lossy(&output.stderr);
    assert_eq!(told, "budgetorder: the report could not be written\n");
}

fn can_trace() -> bool {
    Command::new("strace")
        .args(["-o", "/dev/null", "true"])
        .stderr(Stdio::null())
        .status()
        .is_ok_and(|status| status.success())
}

/// The report is written whole, not line by line.
#[test]
fn a_long_report_comes_in_few_writes() {
    if !can_trace() {
        println!("skipped: strace is missing or can't trace");
        return;
    }
    let trace = env::temp_dir().join(format!("kieselbrot-writes-{}.txt", process::id()));
    let mut command = Command::new("strace");
    command.args(["-f", "-e", "trace=write", "-o"]);
    command.arg(&trace).arg(path());
    let input = most_messages();
    let (output, told) = run_with(command, |stdin| write(stdin, &input));
    assert_eq!(told, "");
    let traced = fs::read_to_string(&trace).expect("the trace");
    fs::remove_file(&trace).expect("the trace is removed");
    same(&output, &input);
    let writes = traced.lines().filter(|line| line.contains("write(1, "));
    let count = writes.count();
    println!("{} bytes in {count} writes", output.len());
    assert!((1..=4).contains(&count), "{count} writes");
}
