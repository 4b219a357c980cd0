//! JSON as RFC 8259 has it.

use std::fmt::{Display, Write};

/// Writes a string with its quotes.
pub fn string(out: &mut String, text: &str) {
    out.push('"');
    for character in text.chars() {
        match character {
            '"' => out.push_str("\\\""),
            '\\' => out.push_str("\\\\"),
            '\n' => out.push_str("\\n"),
            '\r' => out.push_str("\\r"),
            '\t' => out.push_str("\\t"),
            '\0'..='\x1F' | '\x7F' => {
                // Writing to a string never fails.
                let _ = write!(out, "\\u{:04x}", u32::from(character));
            }
            _ => out.push(character),
        }
    }
    out.push('"');
}

/// An object that is being written.
pub struct Object<'a> {
    out: &'a mut String,
    is_empty: bool,
}

/// Writes an object.
pub fn object(out: &mut String, write: impl FnOnce(&mut Object)) {
    out.push('{');
    write(&mut Object {
        out,
        is_empty: true,
    });
    out.push('}');
}

impl Object<'_> {
    /// Begins a member.
    fn name(&mut self, name: &str) -> &mut String {
        if !self.is_empty {
            self.out.push(',');
        }
        self.is_empty = false;
        string(self.out, name);
        self.out.push(':');
        self.out
    }

    pub fn text(&mut self, name: &str, text: &str) {
        string(self.name(name), text);
    }

    /// A number, `true`, `false` or `null`: what is written as it is displayed.
    pub fn value(&mut self, name: &str, value: impl Display) {
        let _ = write!(self.name(name), "{value}");
    }

    pub fn object(&mut self, name: &str, write: impl FnOnce(&mut Object)) {
        object(self.name(name), write);
    }

    pub fn array<T>(
        &mut self,
        name: &str,
        items: impl IntoIterator<Item = T>,
        mut write: impl FnMut(&mut String, T),
    ) {
        let out = self.name(name);
        out.push('[');
        for (place, item) in items.into_iter().enumerate() {
            if place > 0 {
                out.push(',');
            }
            write(out, item);
        }
        out.push(']');
    }

    /// An array of numbers.
    pub fn numbers(&mut self, name: &str, numbers: impl IntoIterator<Item = impl Display>) {
        self.array(name, numbers, |out, number| {
            let _ = write!(out, "{number}");
        });
    }
}

/// An object on a line of its own.
pub fn line(write: impl FnOnce(&mut Object)) -> String {
    let mut out = String::new();
    object(&mut out, write);
    out.push('\n');
    out
}

#[cfg(test)]
mod tests {
    use super::*;

    #[test]
    fn members_and_escapes() {
        let written = line(|object| {
            object.text("a\"\\", "\0\x1F\n\r\t\u{7F}<ТД>");
            object.value("b", -1);
            object.numbers("c", [1, 2]);
            object.object("d", |object| object.value("e", "null"));
            object.array("f", ["x"], string);
            object.object("g", |_| ());
        });
        let expected =
            "{\"a\\\"\\\\\":\"\\u0000\\u001f\\n\\r\\t\\u007f<ТД>\",\"b\":-1,\"c\":[1,2],\
                        \"d\":{\"e\":null},\"f\":[\"x\"],\"g\":{}}\n";
        assert_eq!(written, expected);
    }
}
