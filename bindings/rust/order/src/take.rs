//! Taking up what is proposed to an order.

use std::fmt;

use kieselbrot::{words, Draft, FIELDS};

use crate::{windows1251, TERMS};

/// A line of an order that is the adviser's: FIELD REVISION TEXT.
#[derive(Clone, Debug, PartialEq, Eq)]
pub struct Line {
    /// The field.
    pub field: u8,
    /// Its revision.
    pub revision: u32,
    /// Its text.
    pub text: String,
}

impl fmt::Display for Line {
    fn fmt(&self, f: &mut fmt::Formatter<'_>) -> fmt::Result {
        write!(f, "{} {} {}", self.field, self.revision, self.text)
    }
}

/// Completes a draft as budgetorder does and takes up what is proposed for these fields.
/// Gives the lines that record it as the adviser's, in the order of the slots: with them
/// the order is completed to the same sheet.
///
/// # Errors
///
/// In words: why the draft can't be completed, or why a field can't take up a value.
pub fn take_up(draft: &Draft, fields: &[u8]) -> Result<Vec<Line>, String> {
    let (sheet, _) = draft
        .complete(TERMS)
        .map_err(|_| words::explanation(draft, TERMS))?;
    let mut taken = *draft;
    taken
        .take_up(&sheet, fields.iter().copied())
        .map_err(|refusal| words::not_taken_up(draft, &sheet, refusal))?;
    let chosen = FIELDS.into_iter().filter(|field| fields.contains(field));
    Ok(chosen.map(|field| line(&taken, field)).collect())
}

/// The line of what a draft holds of a field.
fn line(draft: &Draft, field: u8) -> Line {
    Line {
        field,
        revision: draft.revision(field),
        text: windows1251::text(draft.text(field)),
    }
}

#[cfg(test)]
mod tests {
    use super::*;

    /// Document 01's sheet S with 22, 101, 105 to 109 blank, and "0" in 60 and 102.
    const ORDER: &str = "14 1 004525987\n15 1 40102810845370000004\n\
                         17 1 03100643000000014800\n60 1 0\n61 1 6730054024\n102 1 0\n\
                         103 1 772801001\n104 1 18201061201010000510\n";

    fn draft(order: &str) -> Draft {
        crate::draft(&crate::messages(order.as_bytes()).expect("an order"))
    }

    fn lines(order: &str, fields: &[u8]) -> Result<Vec<String>, String> {
        let lines = take_up(&draft(order), fields)?;
        Ok(lines.iter().map(Line::to_string).collect())
    }

    #[test]
    fn lines_in_the_order_of_the_slots() {
        assert_eq!(lines(ORDER, &[101]), Ok(vec!["101 1 04".into()]));
        let three = ["22 1 0", "101 1 04", "106 1 0"].map(String::from);
        assert_eq!(lines(ORDER, &[106, 101, 22, 101]), Ok(three.to_vec()));
        assert_eq!(lines(ORDER, &[]), Ok(vec![]));
        let blanked = ORDER.to_owned() + "101 7 08\n101 300 \n";
        assert_eq!(lines(&blanked, &[101]), Ok(vec!["101 301 04".into()]));
        // Blanked by the client, and taken up as the adviser's.
        let blanked = ORDER.to_owned() + "101 7 08\nclient 101 300 \n";
        assert_eq!(lines(&blanked, &[101]), Ok(vec!["101 301 04".into()]));
    }

    /// With the lines the order is completed to the same sheet, at a count no larger.
    #[test]
    fn the_proposal_stands() {
        let completed = |order: &str| {
            let completed = draft(order).complete(TERMS);
            let (sheet, completed) = completed.expect("it is completed");
            (completed.count, sheet)
        };
        let (count, sheet) = completed(ORDER);
        assert_eq!(count, 97);
        let table: [(&[u8], usize); 4] = [
            (&[101], 1),
            (&[106], 9),
            (&[106, 108, 109], 3),
            (&[22, 101, 105, 106, 107, 108, 109], 1),
        ];
        for (fields, count) in table {
            let lines = lines(ORDER, fields).expect("lines");
            let taken = ORDER.to_owned() + &lines.join("\n");
            assert_eq!(completed(&taken), (count, sheet), "{fields:?}");
        }
    }

    #[test]
    fn what_can_not_be_taken_up() {
        let given = "Field 60 (payer's INN) can't take up a value: it is given already.";
        assert_eq!(lines(ORDER, &[101, 60]), Err(given.into()));
        let listless = "Field 61 (recipient's INN) can't take up a value: nothing is ever \
                        proposed for it.";
        assert_eq!(lines(ORDER, &[61]), Err(listless.into()));
        let greatest = ORDER.to_owned() + "101 4294967295 \n";
        let last = "Field 101 (status) can't take up a value: its revision is the greatest, so \
                    that none can follow.";
        assert_eq!(lines(&greatest, &[101]), Err(last.into()));
    }

    #[test]
    fn an_order_that_can_not_be_completed() {
        let hopeless = ORDER.to_owned() + "104 2 0\n";
        let words = lines(&hopeless, &[101]).expect_err("a refusal");
        assert!(words.starts_with("This order can't be completed: none of its 1,056 "));
        assert!(words.contains("rule 28"));
        let words = lines("", &[101]).expect_err("a refusal");
        assert!(words.starts_with("This order can't be completed yet: "));
    }
}
