//! `complete --html`.

use std::fs;
use std::process::{Child, Command, ExitStatus, Stdio};
use std::thread;
use std::time::{Duration, Instant};

use crate::running::{run, run_on, sample, Try};

/// Tags that have no end.
const VOID: [&str; 1] = ["meta"];

/// The texts of a page whose tags are closed in their order and whose other signs are escaped.
#[track_caller]
pub fn well_formed(page: &str) -> Vec<String> {
    let rest = page.strip_prefix("<!DOCTYPE html>\n").expect("a page");
    let mut rest = rest;
    let mut open: Vec<&str> = Vec::new();
    let mut texts = Vec::new();
    while let Some(begin) = rest.find('<') {
        let (text, tag) = rest.split_at(begin);
        assert!(!text.contains('>'), "{text}");
        for (place, _) in text.match_indices('&') {
            let known = ["&amp;", "&lt;", "&gt;", "&quot;", "&#39;", "&middot;"];
            assert!(
                known.iter().any(|name| text[place..].starts_with(name)),
                "{text}"
            );
        }
        texts.push(text.to_owned());
        let end = tag.find('>').expect("a tag ends");
        let inner = &tag[1..end];
        rest = &tag[end + 1..];
        let name = inner.split(' ').next().unwrap_or_default();
        if let Some(closed) = name.strip_prefix('/') {
            assert_eq!(open.pop(), Some(closed));
        } else if !VOID.contains(&name) {
            assert!(
                name.bytes().all(|byte| byte.is_ascii_alphanumeric()),
                "{name}"
            );
            open.push(name);
        }
    }
    assert!(open.is_empty(), "{open:?}");
    for fetched in [
        "<script", "http:", "https:", "src=", "href=", "url(", "@import", "<link", "<img",
    ] {
        // A text may hold such letters, but not as markup.
        let tags = page
            .split('<')
            .skip(1)
            .map(|part| part.split('>').next().unwrap_or_default());
        let style = page
            .split("<style>")
            .nth(1)
            .and_then(|part| part.split("</style>").next());
        let mut markup = tags.chain(style);
        assert!(
            !markup.any(|part| format!("<{part}").contains(fetched)),
            "{fetched}"
        );
    }
    texts
}

#[test]
fn samples_have_pages() {
    for name in ["order", "hopeless", "status-by-status", "client"] {
        let order = sample(&format!("{name}.txt"));
        let ran = run(&["complete".as_ref(), "--html".as_ref(), order.as_os_str()]);
        let words = run(&["complete".as_ref(), order.as_os_str()]);
        assert_eq!(ran.status, words.status);
        let texts = well_formed(&ran.out);
        for field in kieselbrot::FIELDS {
            let number = field.to_string();
            assert!(texts.contains(&number), "{name} {field}");
        }
        assert!(texts
            .iter()
            .any(|text| text == "03100643000000014800" || text == "03222643000000014800"));
        let has = |text: &str| texts.iter().any(|told| told.contains(text));
        assert!(has(" (line "));
        assert_eq!(ran.out.contains("class=\"box broken\""), name == "hopeless");
        assert_eq!(ran.out.contains("class=\"box proposed\""), ran.status == 0);
    }
}

/// A text is never markup.
#[test]
fn texts_are_escaped() {
    let order = "108 1 <script>alert(1)</script>\n14 1 \"'&<b>\n108 1 </p></div>\nx<y> 1 1\n";
    let ran = run_on(&["complete", "--html", "-"], order.as_bytes());
    let texts = well_formed(&ran.out);
    assert!(
        texts.contains(&"&lt;script&gt;alert(1)&lt;/script&gt;".to_owned())
            || ran.out.contains("&lt;b&gt;")
    );
    assert!(texts.contains(&"&quot;&#39;&amp;&lt;b&gt;".to_owned()));
    assert!(!ran.out.contains("<script"));
    assert!(!ran.out.contains("<y>"));
    assert!(ran.out.contains("<h2>To look at</h2>"));
}

/// Many flaws, the longest texts and the longest answer are on one sheet; where a browser is at
/// hand it prints them.
#[test]
fn one_sheet() {
    let long = fs::read_to_string(sample("status-by-status.txt")).expect("a sample");
    let wide: String = kieselbrot::FIELDS
        .iter()
        .map(|field| format!("client {field} 4294967295 {}\n", "W".repeat(25)))
        .collect();
    let flawed: String = (0..300)
        .map(|number| format!("client 22 4294967295 {number}\n16 1 x\n"))
        .collect();
    let mut pages = vec![run_on(&["complete", "--html", "-"], long.as_bytes()).out];
    for order in [
        wide.clone(),
        wide + &flawed,
        long.clone() + &flawed.replace("4294967295 ", "1 "),
    ] {
        pages.push(run_on(&["complete", "--html", "-"], order.as_bytes()).out);
    }
    for page in pages {
        well_formed(&page);
        assert!(page.matches("<li>").count() <= 9);
        if let Some(count) = printed(&page) {
            assert_eq!(count, 1);
        }
    }
}

/// How many sheets a browser prints, if there is one.
fn printed(page: &str) -> Option<usize> {
    let file = Try::new(page.as_bytes());
    let (page, printed) = (file.0.with_extension("html"), file.0.with_extension("pdf"));
    fs::copy(&file.0, &page).ok()?;
    let browser = Command::new("chromium")
        .args([
            "--headless",
            "--no-sandbox",
            "--disable-gpu",
            "--no-pdf-header-footer",
        ])
        .arg(format!("--print-to-pdf={}", printed.display()))
        .arg(&page)
        .stdin(Stdio::null())
        .stdout(Stdio::null())
        .stderr(Stdio::null())
        .spawn();
    let status = browser.ok().and_then(ended);
    let bytes = fs::read(&printed);
    let _ = fs::remove_file(&page);
    let _ = fs::remove_file(&printed);
    let bytes = status.filter(ExitStatus::success).and(bytes.ok())?;
    let text = String::from_utf8_lossy(&bytes);
    let pages = text.matches("/Type /Page").count() - text.matches("/Type /Pages").count();
    Some(pages)
}

/// How a browser ended, if it did within a minute.
fn ended(mut browser: Child) -> Option<ExitStatus> {
    let start = Instant::now();
    while start.elapsed() < Duration::from_secs(60) {
        if let Ok(Some(status)) = browser.try_wait() {
            return Some(status);
        }
        thread::sleep(Duration::from_millis(50));
    }
    let _ = browser.kill();
    let _ = browser.wait();
    None
}
