//! A small reader of JSON, which takes what is well formed and nothing else.

use std::iter::Peekable;
use std::str::Chars;

#[derive(Clone, Debug, PartialEq)]
pub enum Value {
    Null,
    Truth(bool),
    Number(usize),
    Text(String),
    List(Vec<Value>),
    Object(Vec<(String, Value)>),
}

impl Value {
    /// The value of the whole text.
    pub fn read(text: &str) -> Option<Value> {
        let mut reader = Reader(text.chars().peekable());
        let value = reader.value()?;
        reader.skip();
        reader.0.next().is_none().then_some(value)
    }

    pub fn get(&self, key: &str) -> &Value {
        let Value::Object(entries) = self else {
            panic!("no object: {self:?}");
        };
        let mut found = entries.iter().filter(|(known, _)| known == key);
        match (found.next(), found.next()) {
            (Some((_, value)), None) => value,
            _ => panic!("not one {key}: {self:?}"),
        }
    }

    /// All keys in it, also those of what is inside.
    pub fn keys(&self) -> Vec<&str> {
        match self {
            Value::Object(entries) => {
                let inside = entries.iter().flat_map(|(_, value)| value.keys());
                let keys = entries.iter().map(|(key, _)| key.as_str());
                keys.chain(inside).collect()
            }
            Value::List(items) => items.iter().flat_map(Value::keys).collect(),
            _ => Vec::new(),
        }
    }

    pub fn text(&self) -> &str {
        match self {
            Value::Text(text) => text,
            _ => panic!("no text: {self:?}"),
        }
    }

    pub fn truth(&self) -> bool {
        match self {
            Value::Truth(truth) => *truth,
            _ => panic!("not true or false: {self:?}"),
        }
    }

    pub fn number(&self) -> usize {
        match self {
            Value::Number(number) => *number,
            _ => panic!("no number: {self:?}"),
        }
    }

    pub fn list(&self) -> &[Value] {
        match self {
            Value::List(items) => items,
            _ => panic!("no list: {self:?}"),
        }
    }
}

struct Reader<'a>(Peekable<Chars<'a>>);

impl Reader<'_> {
    fn skip(&mut self) {
        while self
            .0
            .next_if(|letter| " \n\r\t".contains(*letter))
            .is_some()
        {}
    }

    fn take(&mut self, wanted: char) -> Option<()> {
        self.skip();
        self.0.next_if_eq(&wanted).map(|_| ())
    }

    fn word(&mut self, word: &str, value: Value) -> Option<Value> {
        word.chars()
            .all(|letter| self.0.next() == Some(letter))
            .then_some(value)
    }

    fn value(&mut self) -> Option<Value> {
        self.skip();
        match self.0.peek()? {
            'n' => self.word("null", Value::Null),
            't' => self.word("true", Value::Truth(true)),
            'f' => self.word("false", Value::Truth(false)),
            '"' => self.string().map(Value::Text),
            '[' => self.items('[', ']', Self::value).map(Value::List),
            '{' => self.items('{', '}', Self::entry).map(Value::Object),
            '0'..='9' => self.digits(),
            _ => None,
        }
    }

    fn entry(&mut self) -> Option<(String, Value)> {
        self.skip();
        let key = self.string()?;
        self.take(':')?;
        Some((key, self.value()?))
    }

    fn items<T>(
        &mut self,
        open: char,
        close: char,
        item: fn(&mut Self) -> Option<T>,
    ) -> Option<Vec<T>> {
        self.take(open)?;
        let mut items = Vec::new();
        if self.take(close).is_some() {
            return Some(items);
        }
        loop {
            items.push(item(self)?);
            if self.take(close).is_some() {
                return Some(items);
            }
            self.take(',')?;
        }
    }

    fn digits(&mut self) -> Option<Value> {
        let mut digits = String::new();
        while let Some(digit) = self.0.next_if(char::is_ascii_digit) {
            digits.push(digit);
        }
        let has_no_lead = digits == "0" || !digits.starts_with('0');
        has_no_lead.then(|| digits.parse().ok().map(Value::Number))?
    }

    fn string(&mut self) -> Option<String> {
        self.0.next_if_eq(&'"')?;
        let mut text = String::new();
        loop {
            match self.0.next()? {
                '"' => return Some(text),
                '\\' => text.push(self.escaped()?),
                control if control < ' ' => return None,
                letter => text.push(letter),
            }
        }
    }

    fn escaped(&mut self) -> Option<char> {
        Some(match self.0.next()? {
            letter @ ('"' | '\\' | '/') => letter,
            'n' => '\n',
            't' => '\t',
            'r' => '\r',
            'u' => {
                let digits: String = (0..4).filter_map(|_| self.0.next()).collect();
                char::from_u32(u32::from_str_radix(&digits, 16).ok()?)?
            }
            _ => return None,
        })
    }
}
