//! Bytes of a file as text, and what is said of those that are none.

/// The text, or what stands there instead, as an error says it.
pub fn text(bytes: Vec<u8>) -> Result<String, String> {
    if let Some(named) = other_encoding(&bytes) {
        return Err(format!("this text is in {named}: save it as UTF-8"));
    }
    match String::from_utf8(bytes) {
        Ok(text) if text.contains('\0') => Err(NO_TEXT.to_string()),
        Ok(text) => Ok(text),
        Err(error) => Err(broken(error.as_bytes(), error.utf8_error().valid_up_to())),
    }
}

const NO_TEXT: &str = "this is no text (the bytes of a case are read with --bytes, and `koelchair decode` gives their text)";

/// Whether a byte is a control character that no text has.
fn control(byte: u8) -> bool {
    byte < 32 && !matches!(byte, b'\t' | b'\n' | b'\r' | 12)
}

/// UTF-16 or UTF-32, by the mark at the front or by zero bytes between letters.
fn other_encoding(bytes: &[u8]) -> Option<&'static str> {
    let letters = |first: usize| {
        let pairs = bytes.chunks_exact(2).take(16);
        bytes.len() >= 8
            && bytes.len().is_multiple_of(2)
            && pairs.clone().all(|p| p[first] >= 9 && p[1 - first] == 0)
    };
    match bytes {
        [0xff, 0xfe, 0, 0, ..] | [0, 0, 0xfe, 0xff, ..] => Some("UTF-32"),
        [0xff, 0xfe, ..] | [0xfe, 0xff, ..] => Some("UTF-16"),
        _ if letters(0) || letters(1) => Some("UTF-16"),
        _ => None,
    }
}

/// What is said of bytes that are no UTF-8 from a place on: a text in Latin-1 is named with its first letter that is not in ASCII.
fn broken(bytes: &[u8], at: usize) -> String {
    let latin = |b: &u8| !control(*b) && *b != 127 && !(0x80..0xa0).contains(b);
    if !bytes.iter().all(latin) {
        return NO_TEXT.to_string();
    }
    let line = 1 + bytes[..at].iter().filter(|b| **b == b'\n').count();
    let letter = char::from(bytes[at]);
    format!(
        "line {line}: this text is in Latin-1 (its byte {} is `{letter}` there): save it as UTF-8",
        bytes[at]
    )
}
