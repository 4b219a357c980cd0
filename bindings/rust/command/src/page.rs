//! The page for the client: one order in the places of the form 0401060.

use std::fmt::Write;

use kieselbrot::{words, Refusal};

use crate::complete::{Report, Row};
use crate::gather::Origin;
use crate::shown;

/// At most so many clashes, and so many lines that don't read, are on the page, so that it
/// stays one sheet.
const FLAWS_MAX: usize = 3;

/// With more lines of words, or flaws, than this they are printed small.
const WORDS_LONG: usize = 6;
const FLAWS_LONG: usize = 3;

/// With more characters of words than this, too.
const LETTERS_LONG: usize = 500;

/// So many characters of words fit on the page beside flaws.
const WORDS_MAX: usize = 1_300;

/// A box of the form: its place in the grid (columns of 24, rows), the field's number and what
/// the form calls it.
struct Place {
    columns: (u8, u8),
    rows: (u8, u8),
    number: u8,
    name: &'static str,
}

const fn place(columns: (u8, u8), rows: (u8, u8), number: u8, name: &'static str) -> Place {
    Place {
        columns,
        rows,
        number,
        name,
    }
}

/// The form, from its top. Columns and rows are from and to, as the lines of a grid are
/// counted.
const FORM: [Place; 31] = [
    place((1, 9), (1, 2), 62, "Поступ. в банк плат."),
    place((9, 17), (1, 2), 71, "Списано со сч. плат."),
    place((1, 9), (2, 3), 3, "Платежное поручение №"),
    place((9, 14), (2, 3), 4, "Дата"),
    place((14, 19), (2, 3), 5, "Вид платежа"),
    place((20, 25), (2, 3), 101, "Статус"),
    place((1, 25), (3, 4), 6, "Сумма прописью"),
    place((1, 8), (4, 5), 60, "ИНН"),
    place((8, 14), (4, 5), 102, "КПП"),
    place((14, 25), (4, 5), 7, "Сумма"),
    place((1, 14), (5, 6), 8, "Плательщик"),
    place((14, 25), (5, 6), 9, "Сч. №"),
    place((1, 14), (6, 8), 10, "Банк плательщика"),
    place((14, 25), (6, 7), 11, "БИК"),
    place((14, 25), (7, 8), 12, "Сч. №"),
    place((1, 14), (8, 10), 13, "Банк получателя"),
    place((14, 25), (8, 9), 14, "БИК"),
    place((14, 25), (9, 10), 15, "Сч. №"),
    place((1, 8), (10, 11), 61, "ИНН"),
    place((8, 14), (10, 11), 103, "КПП"),
    place((14, 25), (10, 11), 17, "Сч. №"),
    place((1, 14), (11, 12), 16, "Получатель"),
    place((14, 16), (11, 12), 18, "Вид оп."),
    place((16, 18), (11, 12), 21, "Очер."),
    place((18, 25), (11, 12), 22, "Код"),
    place((1, 8), (12, 13), 104, "КБК"),
    place((8, 11), (12, 13), 105, "ОКТМО"),
    place((11, 14), (12, 13), 106, "Осн."),
    place((14, 17), (12, 13), 107, "Таможня"),
    place((17, 21), (12, 13), 108, "Номер"),
    place((21, 25), (12, 13), 109, "Дата"),
];

const STYLE: &str = "\
@page{size:A4;margin:11mm}
*{box-sizing:border-box}
body{margin:0 auto;max-width:186mm;font:9pt/1.35 \"DejaVu Sans\",Arial,sans-serif;color:#000;background:#fff}
h1{font-size:13pt;margin:0}
header{display:flex;justify-content:space-between;align-items:baseline;margin-bottom:2.5mm}
header b{border:1px solid #000;padding:.5mm 2mm}
.form{display:grid;grid-template-columns:repeat(24,1fr);grid-auto-rows:minmax(7mm,auto);gap:.7mm}
.box,.other{border:.6pt solid #000;padding:.7mm 1mm;min-width:0;overflow-wrap:anywhere}
.box i,.other i{font-style:normal;font-size:6.5pt;line-height:1.25;display:block}
.box i b{font-size:8.5pt;margin-right:1mm}
.box p{font:bold 9.4pt/1.22 \"DejaVu Sans Mono\",\"Courier New\",monospace;margin:.3mm 0;white-space:pre-wrap;min-height:4.4mm}
.box small{font-size:6.4pt;line-height:1.2;display:block}
.box em{font-style:normal;font-weight:bold}
.other{border-color:#aaa;color:#555}
.proposed{border:1.2pt dashed #000}
.proposed p{font-style:italic}
.clash{border:2.4pt double #000}
.broken{border:2.2pt solid #000}
h2{font-size:10.5pt;margin:3mm 0 .6mm}
ul{margin:0;padding-left:5mm}
.small{font-size:7pt;line-height:1.2}
footer{margin-top:3mm;border-top:.6pt solid #000;padding-top:1mm;font-size:7pt}
@media screen{body{padding:8mm 2mm}}
";

/// The page of an order.
pub fn page(report: &Report) -> String {
    let mut out = String::new();
    // Writing to a string never fails.
    let _ = write!(
        out,
        "<!DOCTYPE html>\n<html lang=\"en\">\n<head>\n<meta charset=\"utf-8\">\n\
         <meta name=\"viewport\" content=\"width=device-width, initial-scale=1\">\n\
         <title>Payment order {}</title>\n<style>\n{STYLE}</style>\n</head>\n<body>\n\
         <header><h1>Payment order, {}</h1><span>dated {}</span><b>0401060</b></header>\n",
        escaped(&report.name),
        answer(report),
        dated(report.terms.date.0),
    );
    out.push_str("<section class=\"form\">\n");
    for place in &FORM {
        let slots = report.rows.iter().zip(&report.gathered.origins);
        match slots.clone().find(|(row, _)| row.field == place.number) {
            Some((row, origin)) => given(&mut out, report, place, row, origin.as_ref()),
            None => {
                let _ = writeln!(
                    out,
                    "<div class=\"other\" style=\"{}\"><i>{} {}</i></div>",
                    style(place),
                    place.number,
                    place.name
                );
            }
        }
    }
    out.push_str("</section>\n");
    flaws(&mut out, report);
    let lines = fitting(&report.words);
    let length: usize = lines.iter().map(|line| line.chars().count()).sum();
    let size = if lines.len() > WORDS_LONG || length > LETTERS_LONG {
        " class=\"small\""
    } else {
        ""
    };
    let _ = writeln!(out, "<h2>The answer</h2>\n<div{size}>");
    for line in &lines {
        let _ = writeln!(out, "<div>{}</div>", escaped(line));
    }
    out.push_str("</div>\n<footer>");
    out.push_str(LEGEND);
    out.push_str("</footer>\n</body>\n</html>\n");
    out
}

const LEGEND: &str =
    "Each box has its field&#39;s number, its text, and the message that it comes \
                      from. Dashed frame: proposed. Double frame: messages clash. Thick frame: a rule is \
                      broken there. Grey: not looked at here.";

/// The lines of an answer that fit on the page; how many are left out is said at the end.
fn fitting(words: &str) -> Vec<String> {
    let mut lines = Vec::new();
    let (mut length, mut left_out) = (0, 0);
    for line in words.lines() {
        length += line.chars().count();
        // What to begin with is never left out.
        if length <= WORDS_MAX || line.starts_with("Least ") {
            lines.push(line.to_owned());
        } else {
            left_out += 1;
        }
    }
    if left_out > 0 {
        let told = "is told without --html";
        lines.push(format!(
            "What else is in the way, {}, {told}.",
            shown::counted(left_out, "line")
        ));
    }
    lines
}

/// A date YYYYMMDD with its parts apart.
fn dated(number: u32) -> String {
    format!(
        "{:02}.{:02}.{:04}",
        number % 100,
        number / 100 % 100,
        number / 10_000
    )
}

/// The answer in two words.
fn answer(report: &Report) -> &'static str {
    match report.answer.completed {
        Ok(completed) if completed.ones == 0 => "complete",
        Ok(_) => "completed",
        Err(Refusal::Ordinary) => "not a budget payment",
        Err(_) => "not completed",
    }
}

fn style(place: &Place) -> String {
    let (from, to) = place.columns;
    let (top, bottom) = place.rows;
    format!("grid-area:{top}/{from}/{bottom}/{to}")
}

/// A box with a field of the order.
fn given(out: &mut String, report: &Report, place: &Place, row: &Row, origin: Option<&Origin>) {
    let clashes = &report.gathered.clashes;
    let has_clash = clashes.iter().any(|clash| clash.refused.field == row.field);
    let (class, mark) = if broken(report) == Some(row.field) {
        ("box broken", " <em>a rule is broken here</em>")
    } else if has_clash {
        ("box clash", " <em>messages clash</em>")
    } else if row.is_proposed {
        ("box proposed", "")
    } else {
        ("box", "")
    };
    let name = words::field(row.field).unwrap_or_default();
    let _ = writeln!(
        out,
        "<div class=\"{class}\" style=\"{}\"><i><b>{}</b>{} &middot; {}</i><p>{}</p>\
         <small>{}{mark}</small></div>",
        style(place),
        place.number,
        place.name,
        escaped(name),
        escaped(&shown::visible(&row.text)),
        escaped(&source(row, origin)),
    );
}

/// The field of the broken rule, if one is broken by all fillings.
fn broken(report: &Report) -> Option<u8> {
    match report.answer.completed {
        Err(Refusal::Broken { field, .. }) => Some(field),
        Err(Refusal::NoFilling { .. }) => {
            let broken = kieselbrot::pretest(&report.gathered.draft).ok()??;
            Some(broken.field)
        }
        _ => None,
    }
}

/// Where a field comes from, as short as it goes.
fn source(row: &Row, origin: Option<&Origin>) -> String {
    let message = origin.map(|origin| {
        let party = words::party(origin.party).unwrap_or("unknown party");
        format!(
            "message {} (line {}), rev. {}, {party}",
            origin.number, origin.line, origin.revision
        )
    });
    match (row.is_proposed, row.text.is_empty(), message) {
        (true, _, None) => "proposed".to_owned(),
        (true, _, Some(message)) => format!("proposed; blank by {message}"),
        (false, true, None) => "blank".to_owned(),
        (false, true, Some(message)) => format!("blank by {message}"),
        (false, false, message) => message.unwrap_or_default(),
    }
}

/// What clashes and does not read, if anything does.
fn flaws(out: &mut String, report: &Report) {
    let (clashes, unread) = (&report.gathered.clashing, report.unread());
    let flaws: Vec<String> = clashes
        .iter()
        .take(FLAWS_MAX)
        .cloned()
        .chain(unread.take(FLAWS_MAX))
        .collect();
    if flaws.is_empty() {
        return;
    }
    let size = if flaws.len() > FLAWS_LONG {
        " class=\"small\""
    } else {
        ""
    };
    let _ = writeln!(out, "<h2>To look at</h2>\n<ul{size}>");
    for flaw in &flaws {
        let _ = writeln!(out, "<li>{}</li>", escaped(flaw));
    }
    let count = report.gathered.clashes.len() + report.gathered.unread.len();
    if let Some(more @ 1..) = count.checked_sub(flaws.len()) {
        let _ = writeln!(out, "<li>and {more} more</li>");
    }
    out.push_str("</ul>\n");
}

/// A text as it stands in markup.
fn escaped(text: &str) -> String {
    let mut out = String::with_capacity(text.len());
    for character in text.chars() {
        match character {
            '&' => out.push_str("&amp;"),
            '<' => out.push_str("&lt;"),
            '>' => out.push_str("&gt;"),
            '"' => out.push_str("&quot;"),
            '\'' => out.push_str("&#39;"),
            _ => out.push(character),
        }
    }
    out
}

#[cfg(test)]
mod tests {
    use super::*;

    #[test]
    fn every_field_has_one_box_and_no_two_overlap() {
        for field in kieselbrot::FIELDS {
            let boxes = FORM.iter().filter(|place| place.number == field).count();
            assert_eq!(boxes, 1, "field {field}");
        }
        let mut cells = std::collections::HashSet::new();
        for place in &FORM {
            for column in place.columns.0..place.columns.1 {
                for row in place.rows.0..place.rows.1 {
                    assert!(column < 25);
                    assert!(
                        cells.insert((column, row)),
                        "{} at {column}, {row}",
                        place.number
                    );
                }
            }
        }
    }

    #[test]
    fn texts_are_escaped() {
        assert_eq!(
            escaped("<a href=\"x\">&'</a>"),
            "&lt;a href=&quot;x&quot;&gt;&amp;&#39;&lt;/a&gt;"
        );
        assert_eq!(dated(20240115), "15.01.2024");
    }
}
