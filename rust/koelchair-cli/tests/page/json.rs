//! A reader of JSON, for what the tool writes.
#![allow(dead_code)]

/// A value.
#[derive(Debug, PartialEq)]
pub enum Json {
    Null,
    Number(usize),
    Bool(bool),
    String(String),
    Array(Vec<Json>),
    Object(Vec<(String, Json)>),
}

impl Json {
    /// A field of an object.
    pub fn get(&self, name: &str) -> &Json {
        match self {
            Json::Object(fields) => &fields.iter().find(|(n, _)| n == name).expect(name).1,
            other => panic!("{name} of {other:?}"),
        }
    }

    /// The items of a list.
    pub fn items(&self) -> &[Json] {
        match self {
            Json::Array(items) => items,
            other => panic!("no list: {other:?}"),
        }
    }

    /// A number.
    pub fn number(&self) -> usize {
        match self {
            Json::Number(number) => *number,
            other => panic!("no number: {other:?}"),
        }
    }

    /// A list of numbers.
    pub fn numbers(&self) -> Vec<usize> {
        self.items().iter().map(Json::number).collect()
    }

    /// A string.
    pub fn text(&self) -> &str {
        match self {
            Json::String(text) => text,
            other => panic!("no string: {other:?}"),
        }
    }
}

/// Reads a text that is one value.
pub fn read(text: &str) -> Json {
    let mut reader = Reader {
        chars: text.chars().collect(),
        at: 0,
    };
    let value = reader.value();
    assert_eq!(reader.at, reader.chars.len(), "something follows");
    value
}

struct Reader {
    chars: Vec<char>,
    at: usize,
}

impl Reader {
    fn next(&mut self) -> char {
        self.at += 1;
        self.chars[self.at - 1]
    }

    fn take(&mut self, expected: &str) {
        for c in expected.chars() {
            assert_eq!(self.next(), c, "at {}", self.at);
        }
    }

    fn value(&mut self) -> Json {
        match self.chars[self.at] {
            '[' => Json::Array(self.list(']', Reader::value)),
            '{' => Json::Object(self.list('}', Reader::field)),
            '"' => Json::String(self.string()),
            'n' => {
                self.take("null");
                Json::Null
            }
            't' => {
                self.take("true");
                Json::Bool(true)
            }
            'f' => {
                self.take("false");
                Json::Bool(false)
            }
            _ => Json::Number(self.number()),
        }
    }

    fn list<A>(&mut self, end: char, item: impl Fn(&mut Reader) -> A) -> Vec<A> {
        self.next();
        let mut items = Vec::new();
        while self.chars[self.at] != end {
            if !items.is_empty() {
                self.take(",");
            }
            items.push(item(self));
        }
        self.next();
        items
    }

    fn field(&mut self) -> (String, Json) {
        let name = self.string();
        self.take(":");
        (name, self.value())
    }

    fn number(&mut self) -> usize {
        let start = self.at;
        while self.chars[self.at].is_ascii_digit() {
            self.at += 1;
        }
        let digits: String = self.chars[start..self.at].iter().collect();
        digits.parse().expect("a number")
    }

    fn string(&mut self) -> String {
        self.take("\"");
        let mut text = String::new();
        loop {
            match self.next() {
                '"' => return text,
                '\\' => match self.next() {
                    'u' => {
                        let digits: String = (0..4).map(|_| self.next()).collect();
                        let code = u32::from_str_radix(&digits, 16).expect("four digits");
                        text.push(char::from_u32(code).expect("a character"));
                    }
                    'n' => text.push('\n'),
                    c @ ('"' | '\\') => text.push(c),
                    c => panic!("escape {c}"),
                },
                c => text.push(c),
            }
        }
    }
}
