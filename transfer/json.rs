//! Texts of JSON (RFC 8259), as this program writes them: lists, objects, texts and numbers from 0 on.

#[derive(Debug, PartialEq)]
pub enum Json {
    Text(String),
    Number(u64),
    List(Vec<Json>),
    Object(Vec<(String, Json)>),
}

impl Json {
    /// The value that a text is; none where it is none of these.
    pub fn read(text: &str) -> Option<Json> {
        let mut reader = Reader { rest: text };
        let value = reader.value(0)?;
        reader.blanks();
        reader.rest.is_empty().then_some(value)
    }

    pub fn member(&self, name: &str) -> Option<&Json> {
        match self {
            Json::Object(members) => members.iter().find(|(told, _)| told == name).map(|(_, value)| value),
            _ => None,
        }
    }

    pub fn text(&self, name: &str) -> Option<&str> {
        match self.member(name) {
            Some(Json::Text(text)) => Some(text),
            _ => None,
        }
    }

    pub fn number(&self, name: &str) -> Option<u64> {
        match self.member(name) {
            Some(Json::Number(number)) => Some(*number),
            _ => None,
        }
    }

    pub fn items(&self) -> Option<&[Json]> {
        match self {
            Json::List(items) => Some(items),
            _ => None,
        }
    }
}

/// A text as it is written (RFC 8259, 7).
pub fn quoted(text: &str) -> String {
    let mut made = String::from("\"");
    for character in text.chars() {
        match character {
            '"' => made.push_str("\\\""),
            '\\' => made.push_str("\\\\"),
            '\0'..='\x1f' => made.push_str(&format!("\\u{:04x}", character as u32)),
            _ => made.push(character),
        }
    }
    made.push('"');
    made
}

/// The deepest list or object that is read.
const DEEPEST: usize = 8;

struct Reader<'t> {
    rest: &'t str,
}

impl Reader<'_> {
    fn blanks(&mut self) {
        self.rest = self.rest.trim_start_matches([' ', '\t', '\r', '\n']);
    }

    fn take(&mut self, sign: char) -> bool {
        self.blanks();
        let after = self.rest.strip_prefix(sign);
        self.rest = after.unwrap_or(self.rest);
        after.is_some()
    }

    fn value(&mut self, depth: usize) -> Option<Json> {
        if depth > DEEPEST {
            return None;
        }
        if self.take('"') {
            return self.text().map(Json::Text);
        }
        if self.take('[') {
            let mut items = Vec::new();
            self.members(']', |reader| {
                items.push(reader.value(depth + 1)?);
                Some(())
            })?;
            return Some(Json::List(items));
        }
        if self.take('{') {
            let mut members = Vec::new();
            self.members('}', |reader| {
                let name = reader.take('"').then(|| reader.text()).flatten()?;
                reader.take(':').then_some(())?;
                members.push((name, reader.value(depth + 1)?));
                Some(())
            })?;
            return Some(Json::Object(members));
        }
        let length = self.rest.find(|sign: char| !sign.is_ascii_digit()).unwrap_or(self.rest.len());
        let number = self.rest[..length].parse().ok()?;
        self.rest = &self.rest[length..];
        Some(Json::Number(number))
    }

    /// What is between commas, until this sign.
    fn members(&mut self, end: char, mut member: impl FnMut(&mut Self) -> Option<()>) -> Option<()> {
        if self.take(end) {
            return Some(());
        }
        loop {
            member(self)?;
            if self.take(end) {
                return Some(());
            }
            self.take(',').then_some(())?;
        }
    }

    /// A text behind its first quotation mark.
    fn text(&mut self) -> Option<String> {
        let mut made = String::new();
        loop {
            let (before, behind) = self.rest.split_at(self.rest.find(['"', '\\'])?);
            made.push_str(before);
            if let Some(after) = behind.strip_prefix('"') {
                self.rest = after;
                return Some(made);
            }
            let sign = behind[1..].chars().next()?;
            self.rest = &behind[1 + sign.len_utf8()..];
            made.push(match sign {
                '"' | '\\' | '/' => sign,
                'n' => '\n',
                'r' => '\r',
                't' => '\t',
                'b' => '\x08',
                'f' => '\x0c',
                'u' => self.escaped()?,
                _ => return None,
            });
        }
    }

    fn digits(&mut self) -> Option<u32> {
        let digits = self.rest.get(..4)?;
        self.rest = &self.rest[4..];
        u32::from_str_radix(digits, 16).ok()
    }

    /// A character that is told by four digits, or by twice four.
    fn escaped(&mut self) -> Option<char> {
        let high = self.digits()?;
        if !(0xd800..0xdc00).contains(&high) {
            return char::from_u32(high);
        }
        self.rest = self.rest.strip_prefix("\\u")?;
        let low = self.digits().filter(|low| (0xdc00..0xe000).contains(low))?;
        char::from_u32(0x10000 + ((high - 0xd800) << 10) + (low - 0xdc00))
    }
}

#[cfg(test)]
mod tests {
    use super::*;

    #[test]
    fn is_written() {
        // RFC 8259, 7: what has to be escaped.
        assert_eq!(quoted("a\"\\\u{1}\nü/"), "\"a\\\"\\\\\\u0001\\u000aü/\"");
    }

    #[test]
    fn is_read() {
        let text = |text: &str| Some(Json::Text(text.to_string()));
        // RFC 8259, 7: the G clef is U+1D11E.
        assert_eq!(Json::read(r#" "a\"\\\/\n\u00fc\uD834\udd1e" "#), text("a\"\\/\nü\u{1d11e}"));
        assert_eq!(Json::read(&quoted("a\"\\\u{1}\nü/")), text("a\"\\\u{1}\nü/"));
        let value = Json::read("[ {\"a\": 18446744073709551615 , \"b\":\"c\"},\n[] ,{}]").unwrap();
        let items = value.items().unwrap();
        assert_eq!((items[0].number("a"), items[0].text("b"), items[0].text("a"), items.len()), (Some(u64::MAX), Some("c"), None, 3));
        for text in ["", "[", "[1,]", "{\"a\"}", "\"", "\"\\u12\"", "\"\\ud834\"", "\"\\x\"", "18446744073709551616", "-1", "1 2", "true", "[[[[[[[[[[1]]]]]]]]]]"] {
            assert_eq!(Json::read(text), None, "{text}");
        }
    }
}
