//! Numbers and bytes as text.

/// A number that fits its type, decimal or with `0x` in front.
pub fn number<T: TryFrom<u64>>(word: &str) -> Result<T, String> {
    let value = match word.strip_prefix("0x") {
        Some(digits) => u64::from_str_radix(digits, 16),
        None => word.parse(),
    };
    let value = value.map_err(|_| format!("`{word}` is not a number of at most 64 bits"))?;
    T::try_from(value).map_err(|_| format!("{word} is too large here"))
}

/// Bytes written as pairs of hexadecimal digits, in one or more words.
pub fn bytes(words: &[&str]) -> Result<Vec<u8>, String> {
    if words.is_empty() {
        return Err("bytes are missing".into());
    }
    let mut bytes = Vec::new();
    for word in words {
        if !word.is_ascii() || word.len() % 2 != 0 {
            return Err(format!("`{word}` is not pairs of hexadecimal digits"));
        }
        for at in (0..word.len()).step_by(2) {
            let byte = u8::from_str_radix(&word[at..at + 2], 16)
                .map_err(|_| format!("`{word}` is not pairs of hexadecimal digits"))?;
            bytes.push(byte);
        }
    }
    Ok(bytes)
}

pub fn hexadecimal(bytes: &[u8]) -> String {
    bytes.iter().map(|byte| format!("{byte:02x}")).collect()
}
