//! Elements of a picture as text.

use std::fmt::Display;

/// A text in which nothing is markup.
pub fn escaped(text: &str) -> String {
    let mut escaped = String::new();
    for character in text.chars() {
        match character {
            '&' => escaped += "&amp;",
            '<' => escaped += "&lt;",
            '>' => escaped += "&gt;",
            '"' => escaped += "&quot;",
            other => escaped.push(other),
        }
    }
    escaped
}

/// An element with its attributes and nothing in it but a title.
pub fn element(name: &str, attributes: &[(&str, &dyn Display)], title: &str) -> String {
    match title {
        "" => format!("<{name}{}/>\n", written(attributes)),
        _ => format!("<{name}{}><title>{}</title></{name}>\n", written(attributes), escaped(title)),
    }
}

/// A text at a place.
pub fn text(class: &str, x: i64, y: i64, content: &str) -> String {
    format!("<text class=\"{class}\" x=\"{x}\" y=\"{y}\">{}</text>\n", escaped(content))
}

/// A line straight down.
pub fn down(class: &str, x: i64, from: i64, to: i64, title: &str) -> String {
    element("line", &[("class", &class), ("x1", &x), ("y1", &from), ("x2", &x), ("y2", &to)], title)
}

/// A line across the picture.
pub fn across(class: &str, from: i64, to: i64, y: i64) -> String {
    element("line", &[("class", &class), ("x1", &from), ("y1", &y), ("x2", &to), ("y2", &y)], "")
}

/// A rectangle.
pub fn rectangle(class: &str, x: i64, y: i64, width: i64, height: i64, title: &str) -> String {
    let attributes: [(&str, &dyn Display); 5] =
        [("class", &class), ("x", &x), ("y", &y), ("width", &width), ("height", &height)];
    element("rect", &attributes, title)
}

fn written(attributes: &[(&str, &dyn Display)]) -> String {
    attributes.iter().map(|(name, value)| format!(" {name}=\"{}\"", escaped(&value.to_string()))).collect()
}
