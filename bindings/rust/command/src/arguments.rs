//! The arguments of a subcommand.

use std::ffi::{OsStr, OsString};

use crate::{shown, Failure};

/// What was given behind the subcommand.
#[derive(Debug)]
pub struct Arguments {
    /// What is no option, in its order.
    pub items: Vec<OsString>,
    options: Vec<(&'static str, OsString)>,
}

/// Whether `--help` is among the options.
pub fn asks_for_help(given: &[OsString]) -> bool {
    let mut options = given.iter().take_while(|item| *item != "--");
    options.any(|item| item == "--help")
}

/// Sorts out arguments: flags stand alone, options have a value, behind `=` or as the next
/// argument. Behind `--` there are no options.
pub fn parse(
    given: &[OsString],
    flags: &[&'static str],
    valued: &[&'static str],
) -> Result<Arguments, Failure> {
    let mut arguments = Arguments {
        items: Vec::new(),
        options: Vec::new(),
    };
    let mut rest = given.iter();
    while let Some(item) = rest.next() {
        let text = item.to_string_lossy();
        if text == "--" {
            arguments.items.extend(rest.by_ref().cloned());
            break;
        }
        if text == "-" || !text.starts_with('-') {
            arguments.items.push(item.clone());
            continue;
        }
        let (name, value) = match text.split_once('=') {
            Some((name, value)) => (name, Some(OsString::from(value))),
            None => (&*text, None),
        };
        let flag = flags.iter().find(|flag| **flag == name);
        let option = valued.iter().find(|option| **option == name);
        let (name, value) = match (flag, option, value) {
            (Some(flag), _, None) => (*flag, OsString::new()),
            (Some(flag), _, Some(_)) => {
                return Err(Failure::Usage(format!("{flag} takes no value")));
            }
            (None, Some(option), Some(value)) => (*option, value),
            (None, Some(option), None) => match rest.next() {
                Some(value) => (*option, value.clone()),
                None => return Err(Failure::Usage(format!("{option} needs a value"))),
            },
            (None, None, _) => {
                let name = shown::short(name);
                return Err(Failure::Usage(format!("\"{name}\" is no option")));
            }
        };
        if arguments.options.iter().any(|(given, _)| *given == name) {
            return Err(Failure::Usage(format!("{name} is given twice")));
        }
        arguments.options.push((name, value));
    }
    Ok(arguments)
}

impl Arguments {
    /// Whether a flag is given.
    pub fn has(&self, flag: &str) -> bool {
        self.value(flag).is_some()
    }

    /// The value of an option, if it is given.
    pub fn value(&self, option: &str) -> Option<&OsStr> {
        let mut options = self.options.iter();
        let (_, value) = options.find(|(name, _)| *name == option)?;
        Some(value)
    }

    /// The one item; its name is for who forgot it.
    pub fn one(&self, name: &str) -> Result<&OsStr, Failure> {
        match &self.items[..] {
            [item] => Ok(item),
            [] => Err(Failure::Usage(format!("{name} is missing"))),
            [_, ..] => Err(Failure::Usage(format!("one {name} is wanted"))),
        }
    }
}

#[cfg(test)]
mod tests {
    use super::*;

    fn parsed(given: &[&str]) -> Result<Arguments, Failure> {
        let given: Vec<OsString> = given.iter().map(OsString::from).collect();
        parse(&given, &["--json"], &["--date"])
    }

    #[test]
    fn options_and_items() {
        let arguments = parsed(&["a", "--date", "1", "-", "--json", "--", "--b"]).expect("right");
        assert_eq!(arguments.items, ["a", "-", "--b"]);
        assert_eq!(arguments.value("--date"), Some(OsStr::new("1")));
        assert!(arguments.has("--json"));
        let arguments = parsed(&["--date=2=3"]).expect("right");
        assert_eq!(arguments.value("--date"), Some(OsStr::new("2=3")));
        assert!(!arguments.has("--json"));
        assert!(arguments.one("FILE").is_err());
    }

    #[test]
    fn wrong_options() {
        for given in [
            &["--dates"][..],
            &["--date"],
            &["--json=1"],
            &["--json", "--json"],
            &["-x"],
            &["--date=1", "--date", "2"],
        ] {
            assert!(matches!(parsed(given), Err(Failure::Usage(_))), "{given:?}");
        }
    }
}
