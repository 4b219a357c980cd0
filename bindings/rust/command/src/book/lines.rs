//! The lines of a book, split by their orders.

use std::hash::{BuildHasher, Hasher, RandomState};
use std::io::BufRead;
use std::num::NonZero;

use super::{in_parallel, Progress};

/// About so many bytes of the file make a part: what its lines take fits into a cache.
const PART: usize = 1 << 18;

/// At most so many parts.
const PARTS_MAX: usize = 4096;

/// At least so many bytes make a piece to split off, and at most so many.
const PIECE_MIN: usize = 1 << 16;
const PIECE_MAX: usize = 1 << 23;

/// About so many bytes make a line, for the room that is taken at first.
const LINE: usize = 26;

/// Every so many lines of a piece there is a mark, to tell a line's number by.
const MARK_LINES: usize = 16;

/// A book's lines, split.
pub struct Lines<'a> {
    /// The file.
    pub input: &'a [u8],
    pieces: Vec<Piece>,
}

/// A piece of the file, whole lines.
struct Piece {
    begin: usize,
    /// The number of its first line, from 1.
    first_line: usize,
    lines: usize,
    /// Where every 16th line begins, from the first one on; from the piece's begin.
    marks: Vec<u32>,
    /// The lines, part after part; each without its end and with a head before it. They are
    /// copied, so that all of an order stand near each other.
    copies: Vec<u8>,
    /// Where each part begins in the copies, and where the last ends.
    bounds: Vec<usize>,
    /// Lines without an order's name.
    nameless: Vec<u32>,
}

/// The head of a line: where it begins in its piece, how long it is, and half of the hash of
/// its order's name.
const HEAD: usize = 12;

/// The lines of some orders, by pieces: where each begins, and its copies.
pub struct Part<'a> {
    shares: Vec<(usize, &'a [u8])>,
}

/// Splits the lines of a file.
pub fn split<'a>(input: &'a [u8], threads: NonZero<usize>, progress: &Progress) -> Lines<'a> {
    let parts = (input.len() / PART).clamp(1, PARTS_MAX).next_power_of_two();
    let size = (input.len() / (8 * threads.get())).clamp(PIECE_MIN, PIECE_MAX);
    let bounds = bounds(input, size);
    // Chosen anew in each run, so that no file can be made whose names all meet.
    let seed = RandomState::new().build_hasher().finish();
    let splitter = Splitter { input, parts, seed };
    let mut pieces = in_parallel(bounds.len(), threads, progress, |number| {
        let (begin, end) = bounds[number];
        splitter.piece(begin, end)
    });
    let mut first_line = 1;
    for piece in &mut pieces {
        piece.first_line = first_line;
        first_line += piece.lines;
    }
    Lines { input, pieces }
}

/// Where pieces of about this size begin and end; each ends behind a line's end.
fn bounds(input: &[u8], size: usize) -> Vec<(usize, usize)> {
    let mut bounds = Vec::new();
    let mut begin = 0;
    while begin < input.len() {
        let near = (begin + size - 1).min(input.len() - 1);
        let end = near + length_to_end(&input[near..]);
        bounds.push((begin, end));
        begin = end;
    }
    bounds
}

/// How many bytes there are up to the first line feed and with it, or all.
fn length_to_end(mut bytes: &[u8]) -> usize {
    let all = bytes.len();
    // Skipping in a slice never fails.
    bytes.skip_until(b'\n').unwrap_or(all)
}

struct Splitter<'a> {
    input: &'a [u8],
    parts: usize,
    seed: u64,
}

/// A line that is to be copied.
struct Found {
    begin: u32,
    length: u32,
    hash: u64,
}

impl Splitter<'_> {
    fn piece(&self, begin: usize, end: usize) -> Piece {
        let expected = (end - begin).min(PIECE_MAX) / LINE;
        let mut piece = Piece {
            begin,
            first_line: 1,
            lines: 0,
            marks: Vec::with_capacity(expected / MARK_LINES + 1),
            copies: Vec::new(),
            bounds: vec![0; self.parts + 1],
            nameless: Vec::new(),
        };
        let mut found = Vec::with_capacity(expected);
        let mut at = begin;
        while at < end {
            let length = length_to_end(&self.input[at..end]);
            // A piece's lines begin within its first PIECE_MAX bytes.
            let place = (at - begin) as u32;
            if piece.lines.is_multiple_of(MARK_LINES) {
                piece.marks.push(place);
            }
            piece.lines += 1;
            let line = without_end(&self.input[at..at + length]);
            at += length;
            if is_left_out(line) {
                continue;
            }
            let name = name(line);
            if name.is_empty() {
                piece.nameless.push(place);
                continue;
            }
            let hash = hash(self.seed, name);
            // A line of over 4 GB is wrong, or its name is that long.
            let length = u32::try_from(line.len()).unwrap_or(u32::MAX);
            piece.bounds[self.part(hash) + 1] += HEAD + length as usize;
            found.push(Found {
                begin: place,
                length,
                hash,
            });
        }
        self.copy(&mut piece, &found);
        piece
    }

    /// The part of an order whose name has this hash.
    fn part(&self, hash: u64) -> usize {
        let bits = self.parts.trailing_zeros();
        hash.checked_shr(64 - bits).unwrap_or(0) as usize
    }

    /// Copies lines part after part; the bounds have the size of each part in the place behind
    /// its own.
    fn copy(&self, piece: &mut Piece, found: &[Found]) {
        let mut sum = 0;
        for bound in &mut piece.bounds {
            sum += *bound;
            *bound = sum;
        }
        piece.copies = vec![0; sum];
        let mut next = piece.bounds.clone();
        for line in found {
            let next = &mut next[self.part(line.hash)];
            let length = line.length as usize;
            let (head, copy) = piece.copies[*next..][..HEAD + length].split_at_mut(HEAD);
            *next += HEAD + length;
            let numbers = [line.begin, line.length, line.hash as u32];
            for (to, number) in head.chunks_exact_mut(4).zip(numbers) {
                to.copy_from_slice(&number.to_le_bytes());
            }
            let from = piece.begin + line.begin as usize;
            copy.copy_from_slice(&self.input[from..from + length]);
        }
    }
}

/// A line without its end.
fn without_end(line: &[u8]) -> &[u8] {
    let line = line.strip_suffix(b"\n").unwrap_or(line);
    line.strip_suffix(b"\r").unwrap_or(line)
}

/// Whether a line is blank or begins with `#`.
fn is_left_out(line: &[u8]) -> bool {
    match line.first() {
        None | Some(b'#') => true,
        Some(b'!'..=b'~') => false,
        _ => str::from_utf8(line).is_ok_and(order::is_left_out),
    }
}

/// The order's name: what stands before the first space.
pub fn name(line: &[u8]) -> &[u8] {
    let end = line.iter().position(|&byte| byte == b' ');
    &line[..end.unwrap_or(line.len())]
}

fn hash(seed: u64, name: &[u8]) -> u64 {
    let mut words = name.chunks_exact(8);
    let mut hash = mixed(seed.wrapping_add(name.len() as u64));
    for word in &mut words {
        let word = word.try_into().map_or(0, u64::from_le_bytes);
        hash = mixed(hash ^ word);
    }
    let rest = words.remainder().iter().rev();
    let last = rest.fold(0, |last, &byte| last << 8 | u64::from(byte));
    mixed(mixed(hash ^ last) ^ seed.rotate_left(32))
}

/// Both halves of a product, one over the other.
fn mixed(word: u64) -> u64 {
    let product = u128::from(word) * 0x9E37_79B9_7F4A_7C15;
    product as u64 ^ (product >> 64) as u64
}

impl<'a> Lines<'a> {
    /// How many parts there are.
    pub fn parts(&self) -> usize {
        let bounds = self.pieces.first().map_or(0, |piece| piece.bounds.len());
        bounds.saturating_sub(1)
    }

    /// A part.
    pub fn part(&self, number: usize) -> Part<'_> {
        let shares = self.pieces.iter().map(|piece| {
            let (from, to) = (piece.bounds[number], piece.bounds[number + 1]);
            (piece.begin, &piece.copies[from..to])
        });
        Part {
            shares: shares.collect(),
        }
    }

    /// The line that begins at a place, without its end.
    pub fn line(&self, place: usize) -> &'a [u8] {
        let rest = self.input.get(place..).unwrap_or_default();
        without_end(&rest[..length_to_end(rest)])
    }

    /// The number of the line that begins at a place, from 1.
    pub fn number(&self, place: usize) -> usize {
        let piece = self.pieces.partition_point(|piece| piece.begin <= place);
        let Some(piece) = piece
            .checked_sub(1)
            .and_then(|piece| self.pieces.get(piece))
        else {
            return 1;
        };
        let mark = piece
            .marks
            .partition_point(|&mark| piece.begin + mark as usize <= place);
        let mark = mark.saturating_sub(1);
        let from = piece.begin + piece.marks.get(mark).map_or(0, |&mark| mark as usize);
        let between = self.input.get(from..place).unwrap_or_default();
        let lines = between.iter().filter(|&&byte| byte == b'\n').count();
        piece.first_line + mark * MARK_LINES + lines
    }

    /// The places of the lines that have no order's name.
    pub fn nameless(&self) -> impl Iterator<Item = usize> + '_ {
        self.pieces.iter().flat_map(|piece| {
            let begins = piece.nameless.iter();
            begins.map(|&begin| piece.begin + begin as usize)
        })
    }
}

/// Where a line stands in a part: in which share, and where in it.
#[derive(Clone, Copy)]
pub struct At {
    share: u32,
    head: u32,
}

/// A line of a part.
pub struct PartLine<'a> {
    /// Where it begins in the file.
    pub place: usize,
    /// Half of the hash of its order's name.
    pub hash: u32,
    /// The line without its end.
    pub line: &'a [u8],
}

impl<'a> Part<'a> {
    /// The line that stands there, if there is one.
    #[inline]
    pub fn line(&self, at: At) -> Option<PartLine<'a>> {
        let (begin, share) = self.shares.get(at.share as usize)?;
        let (head, rest) = share.get(at.head as usize..)?.split_first_chunk::<HEAD>()?;
        let [place, length, hash] = [0, 4, 8].map(|from| {
            let number = [head[from], head[from + 1], head[from + 2], head[from + 3]];
            u32::from_le_bytes(number)
        });
        Some(PartLine {
            place: begin + place as usize,
            hash,
            line: rest.get(..length as usize)?,
        })
    }

    /// The lines and where they stand, in the order of arrival.
    pub fn lines(&self) -> impl Iterator<Item = (At, PartLine<'a>)> + '_ {
        (0..self.shares.len()).flat_map(move |share| {
            // A piece has few bytes but for its last line, and there are few pieces.
            let mut at = At {
                share: share as u32,
                head: 0,
            };
            std::iter::from_fn(move || {
                let line = self.line(at)?;
                let here = at;
                at.head = at.head.saturating_add((HEAD + line.line.len()) as u32);
                Some((here, line))
            })
        })
    }
}

#[cfg(test)]
mod tests {
    use super::*;
    use cases::Random;

    /// Every line has its number and is in one part, with all others of its name, in order.
    #[test]
    fn lines_are_split() {
        let mut random = Random::new(3);
        for count in [0, 1, 15, 16, 17, 20_000] {
            let mut input = Vec::new();
            let mut expected = Vec::new();
            for number in 1..=count {
                let line = match random.below(20) {
                    0 => String::new(),
                    1 => " no name".to_owned(),
                    2 => "# a comment".to_owned(),
                    _ => format!("n{} {}", random.below(500), "x".repeat(random.below(90))),
                };
                expected.push((input.len(), number, line.clone()));
                input.extend(line.bytes());
                if number < count || random.percent(50) {
                    input.extend(random.pick(&[&b"\n"[..], b"\r\n"]));
                }
            }
            let threads = NonZero::new(3).expect("not 0");
            let lines = split(&input, threads, &Progress::new());
            if count == 20_000 {
                assert!(lines.pieces.len() > 3 && lines.parts() > 3);
            }
            for (place, number, line) in &expected {
                assert_eq!(lines.number(*place), *number);
                assert_eq!(lines.line(*place), line.as_bytes());
            }
            let nameless = expected.iter().filter(|(_, _, line)| line.starts_with(' '));
            assert!(lines.nameless().eq(nameless.map(|(place, _, _)| *place)));
            let mut places = Vec::new();
            let mut names = std::collections::HashMap::new();
            for number in 0..lines.parts() {
                let part = lines.part(number);
                for (at, line) in part.lines() {
                    assert_eq!(line.line, lines.line(line.place));
                    assert_eq!(part.line(at).map(|line| line.place), Some(line.place));
                }
                let of_part: Vec<usize> = part.lines().map(|(_, line)| line.place).collect();
                assert!(of_part.is_sorted());
                for &place in &of_part {
                    let name = name(lines.line(place));
                    assert_eq!(*names.entry(name).or_insert(number), number);
                }
                places.extend(of_part);
            }
            places.sort_unstable();
            let named = expected.iter().filter(|(_, _, line)| line.starts_with('n'));
            assert!(places.into_iter().eq(named.map(|(place, _, _)| *place)));
        }
    }

    #[test]
    fn pieces_end_with_lines() {
        let input = b"aa\nb\n\ncccccccccc\nd";
        for size in 1..30 {
            let bounds = bounds(input, size);
            assert_eq!(bounds.first().map(|bound| bound.0), Some(0));
            assert_eq!(bounds.last().map(|bound| bound.1), Some(input.len()));
            assert!(bounds.windows(2).all(|two| two[0].1 == two[1].0));
            assert!(bounds
                .iter()
                .all(|&(_, end)| end == input.len() || input[end - 1] == b'\n'));
        }
        assert!(bounds(b"", 5).is_empty());
    }

    #[test]
    fn names_hash_apart() {
        let names = [
            "a",
            "a\0",
            "b",
            "12345678",
            "123456781",
            "1234567",
            "",
            "\0",
        ];
        let hashes: std::collections::HashSet<u64> =
            names.iter().map(|name| hash(7, name.as_bytes())).collect();
        assert_eq!(hashes.len(), names.len());
    }
}
