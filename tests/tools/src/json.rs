//! As much of JSON as a browser's replies need.

/// A value; an object's fields in the order that they came in.
#[derive(Clone, Debug, PartialEq)]
pub enum Json {
    Nothing,
    Truth(bool),
    Number(f64),
    Text(String),
    List(Vec<Json>),
    Object(Vec<(String, Json)>),
}

impl Json {
    pub fn of(text: &str) -> Option<Json> {
        let mut reader = Reader { letters: text.chars().collect(), at: 0 };
        reader.value()
    }

    /// The field at the end of a way of names.
    pub fn at(&self, way: &[&str]) -> Option<&Json> {
        way.iter().try_fold(self, |value, name| match value {
            Json::Object(fields) => {
                fields.iter().find(|(field, _)| field == name).map(|(_, value)| value)
            }
            _ => None,
        })
    }

    pub fn text(&self) -> Option<&str> {
        match self {
            Json::Text(text) => Some(text),
            _ => None,
        }
    }
}

/// A text in quotes.
pub fn quoted(text: &str) -> String {
    let escaped = |letter: char| match letter {
        '"' | '\\' => format!("\\{letter}"),
        ' '..='~' => letter.to_string(),
        _ => format!("\\u{:04x}", letter as u32),
    };
    format!("\"{}\"", text.chars().map(escaped).collect::<String>())
}

struct Reader {
    letters: Vec<char>,
    at: usize,
}

impl Reader {
    fn next(&mut self) -> Option<char> {
        let letter = self.letters.get(self.at).copied();
        self.at += 1;
        letter
    }

    fn skip(&mut self) -> Option<char> {
        while self.letters.get(self.at)?.is_whitespace() {
            self.at += 1;
        }
        self.letters.get(self.at).copied()
    }

    fn value(&mut self) -> Option<Json> {
        match self.skip()? {
            '"' => Some(Json::Text(self.string()?)),
            '[' => Some(Json::List(self.items(|reader| reader.value(), ']')?)),
            '{' => Some(Json::Object(self.items(Reader::pair, '}')?)),
            _ => self.word(),
        }
    }

    fn word(&mut self) -> Option<Json> {
        let start = self.at;
        while self.letters.get(self.at).is_some_and(|letter| !",]} \n".contains(*letter)) {
            self.at += 1;
        }
        let word: String = self.letters[start..self.at].iter().collect();
        match word.as_str() {
            "null" => Some(Json::Nothing),
            "true" => Some(Json::Truth(true)),
            "false" => Some(Json::Truth(false)),
            _ => word.parse().ok().map(Json::Number),
        }
    }

    fn pair(&mut self) -> Option<(String, Json)> {
        self.skip()?;
        let name = self.string()?;
        self.skip().filter(|&letter| letter == ':')?;
        self.at += 1;
        Some((name, self.value()?))
    }

    fn items<T>(&mut self, one: fn(&mut Reader) -> Option<T>, end: char) -> Option<Vec<T>> {
        self.at += 1;
        let mut found = Vec::new();
        loop {
            match self.skip()? {
                letter if letter == end => {
                    self.at += 1;
                    return Some(found);
                }
                ',' => self.at += 1,
                _ => found.push(one(self)?),
            }
        }
    }

    fn string(&mut self) -> Option<String> {
        self.at += 1;
        let mut text = String::new();
        loop {
            match self.next()? {
                '"' => return Some(text),
                '\\' => text.push(self.escape()?),
                letter => text.push(letter),
            }
        }
    }

    fn escape(&mut self) -> Option<char> {
        match self.next()? {
            'n' => Some('\n'),
            't' => Some('\t'),
            'r' => Some('\r'),
            'b' => Some('\u{8}'),
            'f' => Some('\u{c}'),
            'u' => {
                let digits: String = (0..4).filter_map(|_| self.next()).collect();
                char::from_u32(u32::from_str_radix(&digits, 16).ok()?)
            }
            letter => Some(letter),
        }
    }
}
