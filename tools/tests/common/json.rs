//! A small reader of JSON, as strict as the standard on what it knows: no fractions, no exponents.
#![allow(dead_code)]

#[derive(Clone, Debug, PartialEq, Eq)]
pub enum Value {
    Null,
    Truth(bool),
    Number(i64),
    Text(String),
    List(Vec<Value>),
    Object(Vec<(String, Value)>),
}

impl Value {
    pub fn get(&self, name: &str) -> &Value {
        let Value::Object(members) = self else { panic!("{name} of what is no object: {self:?}") };
        let found = members.iter().find(|(member, _)| member == name);
        &found.unwrap_or_else(|| panic!("no {name} in {self:?}")).1
    }

    pub fn number(&self) -> i64 {
        let Value::Number(number) = self else { panic!("no number: {self:?}") };
        *number
    }

    pub fn text(&self) -> &str {
        let Value::Text(text) = self else { panic!("no text: {self:?}") };
        text
    }

    pub fn list(&self) -> &[Value] {
        let Value::List(items) = self else { panic!("no list: {self:?}") };
        items
    }
}

/// The value that is the whole text.
pub fn parse(text: &str) -> Result<Value, String> {
    let mut reader = Reader { rest: text };
    let value = reader.value()?;
    match reader.rest.trim_start() {
        "" => Ok(value),
        rest => Err(format!("after the value: {rest}")),
    }
}

struct Reader<'t> {
    rest: &'t str,
}

impl Reader<'_> {
    fn take(&mut self, sign: &str) -> bool {
        let rest = self.rest.trim_start();
        self.rest = rest.strip_prefix(sign).unwrap_or(rest);
        rest.starts_with(sign)
    }

    fn value(&mut self) -> Result<Value, String> {
        for (word, value) in [("null", Value::Null), ("true", Value::Truth(true)), ("false", Value::Truth(false))] {
            if self.take(word) {
                return Ok(value);
            }
        }
        if self.take("\"") {
            return self.text().map(Value::Text);
        }
        if self.take("[") {
            return self.items("]", Reader::value).map(Value::List);
        }
        if self.take("{") {
            return self.items("}", Reader::member).map(Value::Object);
        }
        self.number()
    }

    fn items<T>(&mut self, end: &str, item: fn(&mut Self) -> Result<T, String>) -> Result<Vec<T>, String> {
        let mut items = Vec::new();
        if self.take(end) {
            return Ok(items);
        }
        loop {
            items.push(item(self)?);
            if self.take(end) {
                return Ok(items);
            }
            if !self.take(",") {
                return Err(format!("no comma before {}", self.rest));
            }
        }
    }

    fn member(&mut self) -> Result<(String, Value), String> {
        if !self.take("\"") {
            return Err(format!("no name before {}", self.rest));
        }
        let name = self.text()?;
        if !self.take(":") {
            return Err(format!("no colon before {}", self.rest));
        }
        Ok((name, self.value()?))
    }

    fn number(&mut self) -> Result<Value, String> {
        let end = self.rest.find(|c: char| !c.is_ascii_digit() && c != '-').unwrap_or(self.rest.len());
        let (digits, rest) = self.rest.split_at(end);
        let unsigned = digits.strip_prefix('-').unwrap_or(digits);
        if unsigned.len() > 1 && unsigned.starts_with('0') {
            return Err(format!("{digits} begins with 0"));
        }
        self.rest = rest;
        digits.parse().map(Value::Number).map_err(|_| format!("no value: {digits}{rest}"))
    }

    /// What stands between quotes; the first is taken.
    fn text(&mut self) -> Result<String, String> {
        let mut text = String::new();
        loop {
            let mut characters = self.rest.chars();
            let character = characters.next().ok_or("the end in a text")?;
            self.rest = characters.as_str();
            match character {
                '"' => return Ok(text),
                '\\' => text.push(self.escaped()?),
                control if control < ' ' => return Err("a control character in a text".to_string()),
                other => text.push(other),
            }
        }
    }

    fn escaped(&mut self) -> Result<char, String> {
        let mut characters = self.rest.chars();
        let character = characters.next().ok_or("the end in a text")?;
        self.rest = characters.as_str();
        match character {
            '"' | '\\' | '/' => Ok(character),
            'u' => {
                let (digits, rest) = self.rest.split_at_checked(4).ok_or("the end in a text")?;
                self.rest = rest;
                u32::from_str_radix(digits, 16).ok().and_then(char::from_u32).ok_or_else(|| format!("\\u{digits}"))
            }
            other => Err(format!("\\{other} stands for nothing")),
        }
    }
}
