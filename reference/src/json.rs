//! A small reader of JSON lines: records, lists, whole numbers, text, true, false and null.

/// A JSON value.
#[derive(Clone, Debug, PartialEq, Eq)]
pub enum Json {
    Null,
    Truth(bool),
    Number(usize),
    Text(String),
    List(Vec<Json>),
    Record(Vec<(String, Json)>),
}

impl Json {
    /// A field of a record, if it is there.
    pub fn find(&self, name: &str) -> Option<&Json> {
        match self {
            Json::Record(fields) => fields.iter().find(|(n, _)| n == name).map(|(_, v)| v),
            _ => None,
        }
    }

    /// A field of a record that has to be there.
    pub fn field(&self, name: &str) -> Result<&Json, String> {
        self.find(name).ok_or(format!("no field {name}"))
    }

    pub fn number(&self) -> Result<usize, String> {
        match self {
            Json::Number(n) => Ok(*n),
            other => Err(format!("not a number: {other:?}")),
        }
    }

    pub fn text(&self) -> Result<&str, String> {
        match self {
            Json::Text(text) => Ok(text),
            other => Err(format!("not text: {other:?}")),
        }
    }

    pub fn list(&self) -> Result<&[Json], String> {
        match self {
            Json::List(items) => Ok(items),
            other => Err(format!("not a list: {other:?}")),
        }
    }

    pub fn numbers(&self) -> Result<Vec<usize>, String> {
        self.list()?.iter().map(Json::number).collect()
    }

    /// Text of hexadecimal digits, two for each byte.
    pub fn hex(&self) -> Result<Vec<u8>, String> {
        let digits = self.text()?.as_bytes();
        let byte = |pair: &[u8]| {
            let text = std::str::from_utf8(pair).map_err(|e| e.to_string())?;
            u8::from_str_radix(text, 16).map_err(|e| format!("{text}: {e}"))
        };
        digits.chunks(2).map(byte).collect()
    }
}

/// Reads a whole line.
pub fn parse(line: &str) -> Result<Json, String> {
    let mut parser = Parser {
        characters: line.chars().collect(),
        place: 0,
    };
    let value = parser.value()?;
    match parser.peek() {
        None => Ok(value),
        Some(c) => Err(format!("{c} after the value")),
    }
}

struct Parser {
    characters: Vec<char>,
    place: usize,
}

impl Parser {
    /// The next character that is no white space, left where it is.
    fn peek(&mut self) -> Option<char> {
        while self.characters.get(self.place)?.is_whitespace() {
            self.place += 1;
        }
        self.characters.get(self.place).copied()
    }

    /// The very next character.
    fn next(&mut self) -> Result<char, String> {
        let c = self.characters.get(self.place);
        self.place += 1;
        c.copied().ok_or("the line ends too early".to_string())
    }

    fn expect(&mut self, wanted: char) -> Result<(), String> {
        self.peek();
        match self.next()? {
            c if c == wanted => Ok(()),
            c => Err(format!("{c} where {wanted} should stand")),
        }
    }

    fn value(&mut self) -> Result<Json, String> {
        match self.peek() {
            Some('{') => self.record(),
            Some('[') => self.list(),
            Some('"') => self.text().map(Json::Text),
            Some('0'..='9') => self.number(),
            _ => self.word(),
        }
    }

    fn number(&mut self) -> Result<Json, String> {
        let digits = self.while_true(|c| c.is_ascii_digit());
        let number = digits.parse().map_err(|e| format!("{digits}: {e}"))?;
        Ok(Json::Number(number))
    }

    fn word(&mut self) -> Result<Json, String> {
        match self.while_true(|c| c.is_ascii_alphabetic()).as_str() {
            "null" => Ok(Json::Null),
            "true" => Ok(Json::Truth(true)),
            "false" => Ok(Json::Truth(false)),
            other => Err(format!("no value: {other}")),
        }
    }

    fn while_true(&mut self, rule: fn(char) -> bool) -> String {
        let rest = &self.characters[self.place..];
        let taken: String = rest.iter().copied().take_while(|&c| rule(c)).collect();
        self.place += taken.chars().count();
        taken
    }

    fn text(&mut self) -> Result<String, String> {
        self.expect('"')?;
        let mut text = String::new();
        loop {
            match self.next()? {
                '"' => return Ok(text),
                '\\' => text.push(self.escaped()?),
                c => text.push(c),
            }
        }
    }

    fn escaped(&mut self) -> Result<char, String> {
        match self.next()? {
            'n' => Ok('\n'),
            't' => Ok('\t'),
            'r' => Ok('\r'),
            c @ ('"' | '\\' | '/') => Ok(c),
            c => Err(format!("unknown escape {c}")),
        }
    }

    fn list(&mut self) -> Result<Json, String> {
        self.expect('[')?;
        let mut items = Vec::new();
        while self.peek() != Some(']') {
            if !items.is_empty() {
                self.expect(',')?;
            }
            items.push(self.value()?);
        }
        self.expect(']')?;
        Ok(Json::List(items))
    }

    fn record(&mut self) -> Result<Json, String> {
        self.expect('{')?;
        let mut fields = Vec::new();
        while self.peek() != Some('}') {
            if !fields.is_empty() {
                self.expect(',')?;
            }
            let name = self.text()?;
            self.expect(':')?;
            fields.push((name, self.value()?));
        }
        self.expect('}')?;
        Ok(Json::Record(fields))
    }
}
