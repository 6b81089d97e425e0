//! The part of JSON that the vectors use: null, integers, strings, lists and objects. Text that is not well-formed
//! panics.

use std::iter::Peekable;
use std::str::Chars;

/// A value.
#[derive(Debug, PartialEq)]
pub enum Json {
    Null,
    Number(u32),
    Text(String),
    List(Vec<Json>),
    Object(Vec<(String, Json)>),
}

impl Json {
    /// The value that a text holds.
    pub fn read(text: &str) -> Json {
        let mut reader = Reader {
            rest: text.chars().peekable(),
        };
        let value = reader.value();
        assert_eq!(reader.peek(), None, "the end of the text");
        value
    }

    /// The value of a key, if the object has it.
    pub fn get(&self, key: &str) -> Option<&Json> {
        let Json::Object(pairs) = self else {
            panic!("no object: {:?}", self)
        };
        pairs.iter().find(|(name, _)| name == key).map(|it| &it.1)
    }

    pub fn list(&self) -> &[Json] {
        match self {
            Json::List(values) => values,
            _ => panic!("no list: {:?}", self),
        }
    }

    pub fn text(&self) -> &str {
        match self {
            Json::Text(text) => text,
            _ => panic!("no text: {:?}", self),
        }
    }
}

struct Reader<'a> {
    rest: Peekable<Chars<'a>>,
}

impl Reader<'_> {
    /// The next character that is not a space.
    fn peek(&mut self) -> Option<char> {
        while self.rest.next_if(char::is_ascii_whitespace).is_some() {}
        self.rest.peek().copied()
    }

    fn take(&mut self) -> char {
        self.rest.next().expect("more text")
    }

    fn expect(&mut self, wanted: char) {
        assert_eq!(self.peek(), Some(wanted));
        self.take();
    }

    fn value(&mut self) -> Json {
        match self.peek() {
            Some('"') => Json::Text(self.string()),
            Some('[') => Json::List(self.between('[', ']', Reader::value)),
            Some('{') => Json::Object(self.between('{', '}', Reader::pair)),
            Some('n') => {
                "null".chars().for_each(|c| self.expect(c));
                Json::Null
            }
            _ => self.number(),
        }
    }

    fn number(&mut self) -> Json {
        let mut digits = String::new();
        while let Some(digit) = self.rest.next_if(char::is_ascii_digit) {
            digits.push(digit);
        }
        Json::Number(digits.parse().expect("a number"))
    }

    /// The items between two brackets, separated by commas.
    fn between<T>(&mut self, open: char, close: char, item: fn(&mut Self) -> T) -> Vec<T> {
        self.expect(open);
        let mut items = Vec::new();
        while self.peek() != Some(close) {
            if !items.is_empty() {
                self.expect(',');
            }
            items.push(item(self));
        }
        self.expect(close);
        items
    }

    fn pair(&mut self) -> (String, Json) {
        self.peek();
        let key = self.string();
        self.expect(':');
        (key, self.value())
    }

    fn string(&mut self) -> String {
        self.expect('"');
        let mut text = String::new();
        loop {
            match self.take() {
                '"' => return text,
                '\\' => text.push(self.escape()),
                c => text.push(c),
            }
        }
    }

    fn escape(&mut self) -> char {
        match self.take() {
            'n' => '\n',
            't' => '\t',
            'r' => '\r',
            'b' => '\u{8}',
            'f' => '\u{c}',
            'u' => self.code_point(),
            c => c,
        }
    }

    /// A code point, of one unit of UTF-16 or of two.
    fn code_point(&mut self) -> char {
        let mut units = vec![self.unit()];
        if (0xD800..0xDC00).contains(&units[0]) {
            assert_eq!((self.take(), self.take()), ('\\', 'u'));
            units.push(self.unit());
        }
        let text = String::from_utf16(&units).expect("units that go together");
        text.chars().next().expect("a code point")
    }

    fn unit(&mut self) -> u16 {
        let digits: String = (0..4).map(|_| self.take()).collect();
        u16::from_str_radix(&digits, 16).expect("four hexadecimal digits")
    }
}
