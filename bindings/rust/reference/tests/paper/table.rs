//! The table `cases/sheets.txt` against `check`.

use crate::support::check;

#[test]
fn every_case_has_its_verdict() {
    for case in cases::sheets() {
        let verdict = match check(&case.texts.sheet()) {
            Ok(class) => format!("ok {class:?}"),
            Err(refusal) => refusal.to_string(),
        };
        assert_eq!(verdict, case.verdict, "{}", case.name);
    }
}
