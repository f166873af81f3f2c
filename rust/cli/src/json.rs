//! JSON written by hand: one object a line, its names in the order given.

/// An object that grows.
pub struct Object(String);

impl Object {
    pub fn new() -> Object {
        Object("{".into())
    }

    fn name(&mut self, name: &str) {
        if self.0.len() > 1 {
            self.0.push(',');
        }
        self.0.push_str(&format!("\"{name}\":"));
    }

    pub fn number(mut self, name: &str, number: impl Into<i128>) -> Object {
        self.name(name);
        self.0.push_str(&number.into().to_string());
        self
    }

    /// A number, where there is one.
    pub fn maybe(self, name: &str, number: Option<impl Into<i128>>) -> Object {
        match number {
            Some(number) => self.number(name, number),
            None => self,
        }
    }

    pub fn truth(mut self, name: &str, truth: bool) -> Object {
        self.name(name);
        self.0.push_str(if truth { "true" } else { "false" });
        self
    }

    pub fn text(mut self, name: &str, text: &str) -> Object {
        self.name(name);
        push_string(text, &mut self.0);
        self
    }

    /// Bytes: each is the sign of its number, so that none is lost.
    pub fn bytes(self, name: &str, bytes: &[u8]) -> Object {
        let text: String = bytes.iter().map(|&byte| byte as char).collect();
        self.text(name, &text)
    }

    /// What is JSON already.
    pub fn json(mut self, name: &str, json: &str) -> Object {
        self.name(name);
        self.0.push_str(json);
        self
    }

    pub fn end(mut self) -> String {
        self.0.push('}');
        self.0
    }
}

/// A list of what is JSON already.
pub fn list(items: impl IntoIterator<Item = String>) -> String {
    format!("[{}]", items.into_iter().collect::<Vec<_>>().join(","))
}

fn push_string(text: &str, out: &mut String) {
    out.push('"');
    for sign in text.chars() {
        match sign {
            '"' => out.push_str("\\\""),
            '\\' => out.push_str("\\\\"),
            '\n' => out.push_str("\\n"),
            '\0'..'\u{20}' | '\u{7f}'..='\u{9f}' => out.push_str(&format!("\\u{:04x}", u32::from(sign))),
            _ => out.push(sign),
        }
    }
    out.push('"');
}

#[cfg(test)]
mod tests {
    use super::*;

    #[test]
    fn an_object_in_its_order() {
        let object =
            Object::new().text("a", "x\"\\\n\u{1}").number("b", -7).maybe("c", None::<i64>).maybe("d", Some(1u64));
        assert_eq!(
            object.bytes("e", b"\xfc").truth("f", true).end(),
            r#"{"a":"x\"\\\n\u0001","b":-7,"d":1,"e":"ü","f":true}"#
        );
        assert_eq!(list(["1".into(), "2".into()]), "[1,2]");
    }
}
