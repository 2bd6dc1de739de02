//! A small reader of XML, for the pictures: elements, attributes and text; anything else is an error.
#![allow(dead_code)]

#[derive(Clone, Debug, Default)]
pub struct Element {
    pub name: String,
    pub attributes: Vec<(String, String)>,
    pub children: Vec<Element>,
    /// The text directly in it.
    pub text: String,
}

impl Element {
    pub fn get(&self, name: &str) -> Option<&str> {
        self.attributes.iter().find(|(found, _)| found == name).map(|(_, value)| value.as_str())
    }

    /// It and everything in it.
    pub fn all(&self) -> Vec<&Element> {
        let mut all = vec![self];
        self.children.iter().for_each(|child| all.extend(child.all()));
        all
    }
}

/// Two texts of a picture that overlap, or one that leaves it.
pub fn overlapping(picture: &Element) -> Option<String> {
    let texts: Vec<&Element> = picture.all().into_iter().filter(|element| element.name == "text").collect();
    for (n, one) in texts.iter().enumerate() {
        let (from, to, top, bottom) = place(one);
        if from < 0 || to > 960 {
            return Some(one.text.clone());
        }
        for other in &texts[..n] {
            let (left, right, above, below) = place(other);
            if from <= right && left <= to && top <= below && above <= bottom {
                return Some(format!("`{}` and `{}`", one.text, other.text));
            }
        }
    }
    None
}

/// The place of a text: from, to, top and bottom. A character of a label takes less than 7 columns.
fn place(element: &Element) -> (i64, i64, i64, i64) {
    let number = |name: &str| element.get(name).expect(name).parse::<i64>().expect("a number");
    let wide = 7 * i64::try_from(element.text.chars().count()).expect("a text");
    (number("x"), number("x") + wide, number("y") - 9, number("y") + 2)
}

/// The one element that is the whole text.
pub fn parse(text: &str) -> Result<Element, String> {
    let mut reader = Reader { rest: text };
    let element = reader.element()?;
    match reader.rest.trim() {
        "" => Ok(element),
        rest => Err(format!("after the element: {rest}")),
    }
}

struct Reader<'t> {
    rest: &'t str,
}

impl<'t> Reader<'t> {
    fn until(&mut self, end: &[char]) -> Result<&'t str, String> {
        let at = self.rest.find(end).ok_or_else(|| format!("no {end:?}"))?;
        let (before, rest) = self.rest.split_at(at);
        self.rest = rest;
        Ok(before)
    }

    fn take(&mut self, sign: &str) -> Result<(), String> {
        let rest = self.rest.strip_prefix(sign);
        self.rest = rest.ok_or_else(|| format!("no {sign} at {:.40}", self.rest))?;
        Ok(())
    }

    fn element(&mut self) -> Result<Element, String> {
        self.take("<")?;
        let name = self.until(&[' ', '/', '>'])?;
        if name.is_empty() || !name.chars().all(|c| c.is_ascii_alphanumeric()) {
            return Err(format!("`{name}` is no name"));
        }
        let mut element = Element { name: name.to_string(), ..Element::default() };
        while self.rest.starts_with(' ') {
            element.attributes.push(self.attribute()?);
        }
        if self.take("/>").is_ok() {
            return Ok(element);
        }
        self.take(">")?;
        self.content(&mut element)?;
        Ok(element)
    }

    fn attribute(&mut self) -> Result<(String, String), String> {
        self.take(" ")?;
        let name = self.until(&['=', '>'])?.to_string();
        self.take("=\"")?;
        let value = self.until(&['"', '<'])?;
        self.take("\"")?;
        Ok((name, unescaped(value)?))
    }

    fn content(&mut self, element: &mut Element) -> Result<(), String> {
        loop {
            element.text += &unescaped(self.until(&['<'])?)?;
            if self.rest.starts_with("</") {
                return self.take(&format!("</{}>", element.name));
            }
            element.children.push(self.element()?);
        }
    }
}

fn unescaped(text: &str) -> Result<String, String> {
    let mut parts = text.split('&');
    let mut plain = parts.next().unwrap_or("").to_string();
    for part in parts {
        let (name, rest) = part.split_once(';').ok_or_else(|| format!("&{part} has no end"))?;
        let known = [("amp", '&'), ("lt", '<'), ("gt", '>'), ("quot", '"')];
        let found = known.iter().find(|(known, _)| *known == name).ok_or_else(|| format!("&{name}; is unknown"))?;
        plain.push(found.1);
        plain += rest;
    }
    Ok(plain)
}
