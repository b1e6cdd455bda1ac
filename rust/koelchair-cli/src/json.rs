//! JSON that can stand in a script element, and text that can stand between tags.

/// A string. `<`, `>` and `&` are escaped, so that no name can end the script element.
pub fn string(text: &str) -> String {
    let mut written = String::from("\"");
    for c in text.chars() {
        match c {
            '"' | '\\' => written.extend(['\\', c]),
            '<' | '>' | '&' | '\u{2028}' | '\u{2029}' => written.push_str(&code(c)),
            c if c.is_control() => written.push_str(&code(c)),
            c => written.push(c),
        }
    }
    written.push('"');
    written
}

/// A character of the basic plane by its number.
fn code(c: char) -> String {
    format!("\\u{:04x}", u32::from(c))
}

/// A list.
pub fn array(items: impl IntoIterator<Item = String>) -> String {
    let items: Vec<String> = items.into_iter().collect();
    format!("[{}]", items.join(","))
}

/// A list of strings.
pub fn strings<S: AsRef<str>>(items: impl IntoIterator<Item = S>) -> String {
    array(items.into_iter().map(|s| string(s.as_ref())))
}

/// A list of numbers.
pub fn numbers<N: ToString>(items: impl IntoIterator<Item = N>) -> String {
    array(items.into_iter().map(|n| n.to_string()))
}

/// An object; the values are JSON already.
pub fn object(fields: &[(&str, String)]) -> String {
    let fields: Vec<String> = fields
        .iter()
        .map(|(name, value)| format!("{}:{value}", string(name)))
        .collect();
    format!("{{{}}}", fields.join(","))
}

/// Text between tags.
pub fn text(text: &str) -> String {
    let escaped = |c: char| match c {
        '<' => "&lt;".to_string(),
        '>' => "&gt;".to_string(),
        '&' => "&amp;".to_string(),
        c => c.to_string(),
    };
    text.chars().map(escaped).collect()
}

/// Text between tags, with what stands between backquotes as code.
pub fn text_with_code(said: &str) -> String {
    let parts = said.split('`').enumerate();
    let tag = |(i, part): (usize, &str)| match i % 2 {
        1 => format!("<code>{}</code>", text(part)),
        _ => text(part),
    };
    parts.map(tag).collect()
}
