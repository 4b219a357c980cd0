//! A reader of JSON, as strict as RFC 8259.

use std::collections::BTreeMap;

/// A value.
#[derive(Clone, Debug, PartialEq)]
pub enum Value {
    Null,
    Bool(bool),
    Number(i64),
    Text(String),
    Array(Vec<Value>),
    Object(BTreeMap<String, Value>),
}

impl Value {
    #[track_caller]
    pub fn get(&self, name: &str) -> &Value {
        match self {
            Self::Object(members) => members
                .get(name)
                .unwrap_or_else(|| panic!("no {name}: {self:?}")),
            _ => panic!("no object: {self:?}"),
        }
    }

    #[track_caller]
    pub fn number(&self) -> i64 {
        match self {
            Self::Number(number) => *number,
            _ => panic!("no number: {self:?}"),
        }
    }

    #[track_caller]
    pub fn text(&self) -> &str {
        match self {
            Self::Text(text) => text,
            _ => panic!("no text: {self:?}"),
        }
    }

    #[track_caller]
    pub fn items(&self) -> &[Value] {
        match self {
            Self::Array(items) => items,
            _ => panic!("no array: {self:?}"),
        }
    }

    #[track_caller]
    pub fn numbers(&self) -> Vec<i64> {
        self.items().iter().map(Value::number).collect()
    }
}

/// The objects of lines, one on each.
#[track_caller]
pub fn objects(lines: &str) -> Vec<Value> {
    assert!(lines.ends_with('\n'), "{lines}");
    lines.lines().map(object).collect()
}

/// The one object on one line.
#[track_caller]
pub fn one(lines: &str) -> Value {
    let mut objects = objects(lines);
    assert_eq!(objects.len(), 1, "{lines}");
    objects.remove(0)
}

#[track_caller]
fn object(line: &str) -> Value {
    let mut reader = Reader { rest: line };
    let value = reader.value();
    assert_eq!(reader.rest, "", "{line}");
    assert!(matches!(value, Value::Object(_)), "{line}");
    value
}

struct Reader<'a> {
    rest: &'a str,
}

impl Reader<'_> {
    fn takes(&mut self, text: &str) -> bool {
        let rest = self.rest.strip_prefix(text);
        self.rest = rest.unwrap_or(self.rest);
        rest.is_some()
    }

    fn value(&mut self) -> Value {
        if self.takes("null") {
            Value::Null
        } else if self.takes("true") {
            Value::Bool(true)
        } else if self.takes("false") {
            Value::Bool(false)
        } else if self.takes("[") {
            let mut items = Vec::new();
            while !self.takes("]") {
                assert!(items.is_empty() || self.takes(","), "{}", self.rest);
                items.push(self.value());
            }
            Value::Array(items)
        } else if self.takes("{") {
            let mut members = BTreeMap::new();
            while !self.takes("}") {
                assert!(members.is_empty() || self.takes(","), "{}", self.rest);
                let name = self.string();
                assert!(self.takes(":"), "{}", self.rest);
                let value = self.value();
                assert!(members.insert(name, value).is_none(), "a name twice");
            }
            Value::Object(members)
        } else if self.rest.starts_with('"') {
            Value::Text(self.string())
        } else {
            let is_part = |character: char| character == '-' || character.is_ascii_digit();
            let end = self.rest.find(|character| !is_part(character));
            let (number, rest) = self.rest.split_at(end.unwrap_or(self.rest.len()));
            self.rest = rest;
            let value: i64 = number
                .parse()
                .unwrap_or_else(|_| panic!("{number:?} {rest}"));
            assert_eq!(value.to_string(), number);
            Value::Number(value)
        }
    }

    fn string(&mut self) -> String {
        assert!(self.takes("\""), "{}", self.rest);
        let mut text = String::new();
        loop {
            let character = self.rest.chars().next().expect("a string ends");
            self.rest = &self.rest[character.len_utf8()..];
            match character {
                '"' => return text,
                '\\' => text.push(self.escape()),
                '\0'..='\x1F' => panic!("a control character"),
                _ => text.push(character),
            }
        }
    }

    fn escape(&mut self) -> char {
        for (escape, character) in [
            ("\"", '"'),
            ("\\", '\\'),
            ("/", '/'),
            ("b", '\x08'),
            ("f", '\x0C'),
            ("n", '\n'),
            ("r", '\r'),
            ("t", '\t'),
        ] {
            if self.takes(escape) {
                return character;
            }
        }
        assert!(self.takes("u"), "{}", self.rest);
        let (digits, rest) = self.rest.split_at(4);
        self.rest = rest;
        let number = u32::from_str_radix(digits, 16).expect("four digits");
        char::from_u32(number).expect("no surrogate is needed")
    }
}
