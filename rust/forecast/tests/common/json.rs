//! A reader of JSON whose numbers are whole: any other number is a fault.

use std::str::Chars;

#[derive(Clone, Debug, PartialEq)]
pub enum Json {
    Null,
    Truth(bool),
    Number(i64),
    Text(String),
    List(Vec<Json>),
    Map(Vec<(String, Json)>),
}

impl Json {
    /// The whole of a text.
    pub fn read(text: &str) -> Json {
        let mut reader = Reader {
            rest: text.trim().chars(),
        };
        let value = reader.value();
        assert_eq!(reader.rest.as_str(), "", "something stands after the end");
        value
    }

    pub fn get(&self, name: &str) -> &Json {
        match self {
            Json::Map(pairs) => match pairs.iter().find(|pair| pair.0 == name) {
                Some((_, value)) => value,
                None => panic!("no {name}"),
            },
            other => panic!("no {name} in {other:?}"),
        }
    }

    pub fn list(&self) -> &[Json] {
        match self {
            Json::List(things) => things,
            other => panic!("no list: {other:?}"),
        }
    }

    pub fn number(&self) -> i64 {
        match self {
            Json::Number(number) => *number,
            other => panic!("no number: {other:?}"),
        }
    }

    pub fn text(&self) -> &str {
        match self {
            Json::Text(text) => text,
            other => panic!("no text: {other:?}"),
        }
    }

    pub fn numbers(&self) -> Vec<i64> {
        self.list().iter().map(Json::number).collect()
    }

    pub fn texts(&self) -> Vec<&str> {
        self.list().iter().map(Json::text).collect()
    }
}

struct Reader<'a> {
    rest: Chars<'a>,
}

impl Reader<'_> {
    fn peek(&self) -> Option<char> {
        self.rest.clone().next()
    }

    fn space(&mut self) {
        while self.peek().is_some_and(|letter| " \n\t\r".contains(letter)) {
            self.rest.next();
        }
    }

    /// Takes these letters, where they come next.
    fn take(&mut self, letters: &str) -> bool {
        self.space();
        let found = self.rest.as_str().starts_with(letters);
        if found {
            self.rest = self.rest.as_str()[letters.len()..].chars();
        }
        found
    }

    fn value(&mut self) -> Json {
        self.space();
        match self.peek() {
            Some('{') => self.map(),
            Some('[') => self.list(),
            Some('"') => Json::Text(self.text()),
            Some('-' | '0'..='9') => self.number(),
            _ if self.take("null") => Json::Null,
            _ if self.take("true") => Json::Truth(true),
            _ if self.take("false") => Json::Truth(false),
            other => panic!("{other:?} begins no value"),
        }
    }

    fn list(&mut self) -> Json {
        assert!(self.take("["));
        let mut things = Vec::new();
        while !self.take("]") {
            assert!(things.is_empty() || self.take(","));
            things.push(self.value());
        }
        Json::List(things)
    }

    fn map(&mut self) -> Json {
        assert!(self.take("{"));
        let mut pairs = Vec::new();
        while !self.take("}") {
            assert!(pairs.is_empty() || self.take(","));
            self.space();
            let name = self.text();
            assert!(self.take(":"));
            pairs.push((name, self.value()));
        }
        Json::Map(pairs)
    }

    fn number(&mut self) -> Json {
        let text = self.rest.as_str();
        let end = text.find(|letter| !"-+.eE0123456789".contains(letter));
        let digits = &text[..end.unwrap_or(text.len())];
        self.rest = text[digits.len()..].chars();
        let number: i64 = digits.parse().expect(digits);
        assert_eq!(number.to_string(), digits, "written another way");
        Json::Number(number)
    }

    fn text(&mut self) -> String {
        assert_eq!(self.rest.next(), Some('"'));
        let mut text = String::new();
        loop {
            match self.rest.next().expect("a text ends") {
                '"' => return text,
                '\\' => text.push(self.escaped()),
                letter => {
                    assert!(letter >= ' ', "{letter:?} stands bare");
                    text.push(letter);
                }
            }
        }
    }

    fn escaped(&mut self) -> char {
        match self.rest.next().expect("a text ends") {
            'n' => '\n',
            't' => '\t',
            'u' => {
                let digits: String = self.rest.by_ref().take(4).collect();
                let number = u32::from_str_radix(&digits, 16).expect(&digits);
                char::from_u32(number).expect("half a letter")
            }
            letter => {
                assert!("\"\\/".contains(letter), "\\{letter}");
                letter
            }
        }
    }
}
