//! The part of JSON that the published cases are written in: objects of texts, whole numbers and objects.

#[derive(Clone, Debug, PartialEq, Eq)]
pub enum Json {
    Text(String),
    Number(i64),
    Object(Vec<(String, Json)>),
}

impl Json {
    /// Reads one line, which must be one value.
    pub fn read(line: &str) -> Result<Json, String> {
        let mut reader = Reader { rest: line };
        let value = reader.value()?;
        match reader.rest.trim_start() {
            "" => Ok(value),
            rest => Err(format!("more after the value: {rest:.20}")),
        }
    }

    /// A field of an object.
    pub fn field(&self, name: &str) -> Result<&Json, String> {
        let Json::Object(fields) = self else { return Err(format!("{name}: not in an object")) };
        let found = fields.iter().find(|(known, _)| known == name);
        found.map(|(_, value)| value).ok_or_else(|| format!("{name} is missing"))
    }

    pub fn text(&self, name: &str) -> Result<&str, String> {
        match self.field(name)? {
            Json::Text(text) => Ok(text),
            _ => Err(format!("{name} is no text")),
        }
    }

    /// A number of the published fields, which are all unsigned.
    pub fn number(&self, name: &str) -> Result<u32, String> {
        match self.field(name)? {
            Json::Number(number) => u32::try_from(*number).map_err(|_| format!("{name} is out of range")),
            _ => Err(format!("{name} is no number")),
        }
    }

    /// A buffer, written in hex.
    pub fn bytes(&self, name: &str) -> Result<Vec<u8>, String> {
        let digits = self.text(name)?;
        let pairs = digits.as_bytes().chunks(2);
        let byte = |pair: &[u8]| std::str::from_utf8(pair).ok().filter(|pair| pair.len() == 2).map(hex);
        pairs.map(|pair| byte(pair).flatten().ok_or_else(|| format!("{name} is no hex"))).collect()
    }
}

fn hex(pair: &str) -> Option<u8> {
    u8::from_str_radix(pair, 16).ok()
}

struct Reader<'a> {
    rest: &'a str,
}

impl Reader<'_> {
    /// Takes a character if it comes next, after space.
    fn take(&mut self, wanted: char) -> bool {
        self.rest = self.rest.trim_start();
        match self.rest.strip_prefix(wanted) {
            Some(rest) => {
                self.rest = rest;
                true
            }
            None => false,
        }
    }

    fn need(&mut self, wanted: char) -> Result<(), String> {
        if self.take(wanted) {
            return Ok(());
        }
        Err(format!("{wanted} is due before {:.20}", self.rest))
    }

    fn value(&mut self) -> Result<Json, String> {
        if self.take('{') {
            return self.fields().map(Json::Object);
        }
        if self.take('"') {
            return self.text().map(Json::Text);
        }
        self.number().map(Json::Number)
    }

    /// An object after its opening bracket.
    fn fields(&mut self) -> Result<Vec<(String, Json)>, String> {
        let mut fields = Vec::new();
        if self.take('}') {
            return Ok(fields);
        }
        loop {
            self.need('"')?;
            let name = self.text()?;
            self.need(':')?;
            fields.push((name, self.value()?));
            if self.take('}') {
                return Ok(fields);
            }
            self.need(',')?;
        }
    }

    /// A text after its opening mark.
    fn text(&mut self) -> Result<String, String> {
        let mut text = String::new();
        let mut letters = self.rest.chars();
        while let Some(letter) = letters.next() {
            match letter {
                '"' => {
                    self.rest = letters.as_str();
                    return Ok(text);
                }
                '\\' => match letters.next() {
                    Some('n') => text.push('\n'),
                    Some(letter @ ('"' | '\\' | '/')) => text.push(letter),
                    _ => return Err("an escape that the published cases do not use".to_string()),
                },
                letter => text.push(letter),
            }
        }
        Err("a text without end".to_string())
    }

    fn number(&mut self) -> Result<i64, String> {
        let end = self.rest.find(|letter: char| letter != '-' && !letter.is_ascii_digit()).unwrap_or(self.rest.len());
        let (digits, rest) = self.rest.split_at(end);
        self.rest = rest;
        digits.parse().map_err(|_| format!("a value is due before {:.20}", self.rest))
    }
}
