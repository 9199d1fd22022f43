//! As much JSON as a driver of browsers speaks.

/// A value.
#[derive(Clone, Debug, PartialEq)]
pub enum Json {
    Null,
    Bool(bool),
    Number(f64),
    Text(String),
    List(Vec<Json>),
    Object(Vec<(String, Json)>),
}

impl Json {
    /// Reads a value; a text that is none panics, as a test should.
    pub fn of(text: &str) -> Json {
        let mut reader = Reader { text, at: 0 };
        let value = reader.value();
        reader.blanks();
        assert_eq!(reader.at, text.len(), "more after the value in {text}");
        value
    }

    /// A field of an object.
    pub fn get(&self, name: &str) -> &Json {
        match self {
            Json::Object(fields) => fields.iter().find(|(own, _)| own == name).map_or(&Json::Null, |(_, value)| value),
            _ => &Json::Null,
        }
    }

    /// A text.
    pub fn text(&self) -> &str {
        match self {
            Json::Text(text) => text,
            other => panic!("{other:?} is no text"),
        }
    }

    /// A list.
    pub fn list(&self) -> &[Json] {
        match self {
            Json::List(values) => values,
            other => panic!("{other:?} is no list"),
        }
    }

    /// A whole number.
    pub fn number(&self) -> i64 {
        match self {
            Json::Number(number) => *number as i64,
            other => panic!("{other:?} is no number"),
        }
    }
}

/// A text as JSON writes it.
pub fn quoted(text: &str) -> String {
    let escape = |c: char| match c {
        '"' => "\\\"".to_string(),
        '\\' => "\\\\".to_string(),
        c if c.is_control() => format!("\\u{:04x}", c as u32),
        c => c.to_string(),
    };
    format!("\"{}\"", text.chars().map(escape).collect::<String>())
}

struct Reader<'a> {
    text: &'a str,
    at: usize,
}

impl Reader<'_> {
    fn rest(&self) -> &str {
        &self.text[self.at..]
    }

    fn blanks(&mut self) {
        self.at += self.rest().len() - self.rest().trim_start().len();
    }

    fn takes(&mut self, wanted: &str) -> bool {
        self.blanks();
        let is_next = self.rest().starts_with(wanted);
        self.at += if is_next { wanted.len() } else { 0 };
        is_next
    }

    fn value(&mut self) -> Json {
        for (word, value) in [("null", Json::Null), ("true", Json::Bool(true)), ("false", Json::Bool(false))] {
            if self.takes(word) {
                return value;
            }
        }
        if self.takes("{") {
            let field = |reader: &mut Self| {
                assert!(reader.takes("\""), "a name");
                let name = reader.string();
                assert!(reader.takes(":"), "a colon");
                (name, reader.value())
            };
            return Json::Object(self.until("}", field));
        }
        if self.takes("[") {
            return Json::List(self.until("]", Self::value));
        }
        if self.takes("\"") {
            return Json::Text(self.string());
        }
        let length = self.rest().find(|c: char| !matches!(c, '0'..='9' | '-' | '+' | '.' | 'e' | 'E')).unwrap_or(self.rest().len());
        let number =
            self.rest()[..length].parse().unwrap_or_else(|_| panic!("no value at {:?}", self.rest().chars().take(40).collect::<String>()));
        self.at += length;
        Json::Number(number)
    }

    fn until<T>(&mut self, end: &str, mut one: impl FnMut(&mut Self) -> T) -> Vec<T> {
        let mut all = Vec::new();
        if self.takes(end) {
            return all;
        }
        loop {
            all.push(one(self));
            if self.takes(end) {
                return all;
            }
            assert!(self.takes(","), "a comma");
        }
    }

    /// The text after its first quotation mark.
    fn string(&mut self) -> String {
        let mut units: Vec<u16> = Vec::new();
        loop {
            let c = self.rest().chars().next().expect("the text ends");
            self.at += c.len_utf8();
            match c {
                '"' => return String::from_utf16_lossy(&units),
                '\\' => units.push(self.escaped()),
                c => units.extend(c.encode_utf16(&mut [0; 2]).iter()),
            }
        }
    }

    fn escaped(&mut self) -> u16 {
        let c = self.rest().chars().next().expect("the text ends");
        self.at += c.len_utf8();
        match c {
            'n' => 10,
            't' => 9,
            'r' => 13,
            'b' => 8,
            'f' => 12,
            'u' => {
                let digits = &self.text[self.at..self.at + 4];
                self.at += 4;
                u16::from_str_radix(digits, 16).expect("four digits")
            }
            other => other as u16,
        }
    }
}
