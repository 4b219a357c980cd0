//! The causes of a refusal as JSON, beside the words.

use kieselbrot::causes::{Cause, Causes, Kind};
use kieselbrot::Entry;
use order::windows1251;

use crate::json::{self, Object};

/// The members of the causes: all of them, and the statuses that have the fewest.
///
/// What each rule wants is told by a function, which may know it already.
pub fn members<'a>(object: &mut Object, causes: &Causes, wants: impl Fn(u8) -> &'a str) {
    object.array("causes", &causes.all, |out, cause| {
        json::object(out, |object| members_of(object, cause, wants(cause.rule)));
    });
    object.array("fewest", &causes.fewest, |out, (statuses, rules)| {
        json::object(out, |object| {
            object.array("statuses", statuses, entry);
            object.numbers("rules", rules);
        });
    });
}

/// The members of a cause.
fn members_of(object: &mut Object, cause: &Cause, wants: &str) {
    object.value("rule", cause.rule);
    object.value("field", cause.field);
    object.text("wants", wants);
    object.text(
        "kind",
        match cause.kind {
            Kind::Missing => "missing",
            Kind::OnlyZero => "only zero",
            Kind::Given => "given",
        },
    );
    object.numbers("fields", &cause.fields);
    object.numbers("beside", &cause.beside);
    match &cause.statuses {
        Some(statuses) => object.array("statuses", statuses, entry),
        None => object.value("statuses", "null"),
    }
    object.array("choices", &cause.choices, |out, choice| {
        json::object(out, |object| {
            for (field, entries) in choice {
                object.array(&field.to_string(), entries, entry);
            }
        });
    });
}

/// An entry of a list as a string.
fn entry(out: &mut String, entry: &Entry) {
    json::string(out, &windows1251::text(entry));
}
