//! A small, strict reader of JSON. What is no JSON fails the test.
use std::iter::Peekable;
use std::str::Chars;

#[derive(Clone, PartialEq, Debug)]
pub enum Json {
    Null,
    Truth(bool),
    /// As it is written.
    Number(String),
    Text(String),
    List(Vec<Json>),
    Object(Vec<(String, Json)>),
}

pub fn read(text: &str) -> Json {
    let mut letters = text.chars().peekable();
    let value = value(&mut letters);
    space(&mut letters);
    assert_eq!(letters.next(), None, "nothing follows the value");
    value
}

impl Json {
    /// A member of an object.
    pub fn at(&self, name: &str) -> &Json {
        let Json::Object(members) = self else {
            panic!("no object, but {self:?}")
        };
        let found: Vec<_> = members.iter().filter(|(known, _)| known == name).collect();
        assert_eq!(found.len(), 1, "members called {name}");
        &found[0].1
    }

    pub fn list(&self) -> &[Json] {
        let Json::List(items) = self else {
            panic!("no list, but {self:?}")
        };
        items
    }

    pub fn text(&self) -> &str {
        let Json::Text(text) = self else {
            panic!("no text, but {self:?}")
        };
        text
    }

    pub fn number(&self) -> u64 {
        self.written().parse().unwrap()
    }

    pub fn seconds(&self) -> f64 {
        self.written().parse().unwrap()
    }

    fn written(&self) -> &str {
        let Json::Number(number) = self else {
            panic!("no number, but {self:?}")
        };
        number
    }
}

type Letters<'t> = Peekable<Chars<'t>>;

fn space(letters: &mut Letters) {
    while letters.next_if(|letter| " \n\r\t".contains(*letter)).is_some() {}
}

fn value(letters: &mut Letters) -> Json {
    space(letters);
    match letters.peek() {
        Some('{') => Json::Object(items(letters, '}', |letters| {
            space(letters);
            let name = string(letters);
            space(letters);
            assert_eq!(letters.next(), Some(':'));
            (name, value(letters))
        })),
        Some('[') => Json::List(items(letters, ']', value)),
        Some('"') => Json::Text(string(letters)),
        _ => word(letters),
    }
}

fn items<T>(letters: &mut Letters, end: char, each: impl Fn(&mut Letters) -> T) -> Vec<T> {
    letters.next();
    let mut items = Vec::new();
    space(letters);
    if letters.next_if_eq(&end).is_some() {
        return items;
    }
    loop {
        items.push(each(letters));
        space(letters);
        match letters.next() {
            Some(',') => {}
            Some(letter) if letter == end => return items,
            other => panic!("{other:?} where , or {end} is due"),
        }
    }
}

fn string(letters: &mut Letters) -> String {
    assert_eq!(letters.next(), Some('"'));
    let mut text = String::new();
    loop {
        match letters.next().expect("a string has an end") {
            '"' => return text,
            '\\' => text.push(escaped(letters)),
            letter if letter < ' ' => panic!("{letter:?} stands bare in a string"),
            letter => text.push(letter),
        }
    }
}

fn escaped(letters: &mut Letters) -> char {
    match letters.next() {
        Some('n') => '\n',
        Some(letter @ ('"' | '\\' | '/')) => letter,
        Some('u') => {
            let digits: String = letters.by_ref().take(4).collect();
            char::from_u32(u32::from_str_radix(&digits, 16).unwrap()).unwrap()
        }
        other => panic!("\\{other:?} is not read here"),
    }
}

fn word(letters: &mut Letters) -> Json {
    let mut word = String::new();
    while let Some(letter) = letters.next_if(|letter| letter.is_ascii_alphanumeric() || "+-.".contains(*letter)) {
        word.push(letter);
    }
    match word.as_str() {
        "null" => Json::Null,
        "true" => Json::Truth(true),
        "false" => Json::Truth(false),
        number => {
            assert!(number.parse::<f64>().is_ok_and(f64::is_finite), "{number} is no number");
            Json::Number(word)
        }
    }
}
