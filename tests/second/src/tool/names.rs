//! Names of files as they are printed: on one line always, and as JSON strings.

/// The characters of a name, and the bytes that belong to none.
fn characters(name: &[u8]) -> Vec<Result<char, u8>> {
    let mut list = Vec::new();
    let mut rest = name;
    while let Some(&byte) = rest.first() {
        let whole = (1..=rest.len().min(4)).find_map(|n| {
            let text = std::str::from_utf8(&rest[..n]).ok()?;
            Some((text.chars().next()?, n))
        });
        match whole {
            Some((character, length)) => {
                list.push(Ok(character));
                rest = &rest[length..];
            }
            None => {
                list.push(Err(byte));
                rest = &rest[1..];
            }
        }
    }
    list
}

/// A name as text has it: control characters, backslashes and what is no UTF-8 escaped.
pub fn printed(name: &[u8]) -> String {
    let mut text = String::new();
    for character in characters(name) {
        match character {
            Ok('\n') => text.push_str("\\n"),
            Ok('\t') => text.push_str("\\t"),
            Ok('\r') => text.push_str("\\r"),
            Ok('\\') => text.push_str("\\\\"),
            // Both those of one byte and those of two.
            Ok(other) if other.is_control() => {
                let bytes = other.to_string().into_bytes();
                text.extend(bytes.iter().map(|byte| format!("\\x{byte:02x}")));
            }
            Ok(other) => text.push(other),
            Err(byte) => text.push_str(&format!("\\x{byte:02x}")),
        }
    }
    text
}

/// `"file":NAME`, and where the name is no UTF-8 all its bytes too.
pub fn json(name: &[u8]) -> String {
    let text: String = characters(name).iter().map(|c| c.unwrap_or('\u{FFFD}')).collect();
    let bytes = match std::str::from_utf8(name) {
        Ok(_) => String::new(),
        Err(_) => {
            let hex: String = name.iter().map(|byte| format!("{byte:02x}")).collect();
            format!(",\"file_bytes\":\"{hex}\"")
        }
    };
    format!("\"file\":{}{bytes}", string(&text))
}

/// A JSON string, with as few escapes as there may be.
fn string(text: &str) -> String {
    let escaped = |character: char| match character {
        '"' => "\\\"".to_string(),
        '\\' => "\\\\".to_string(),
        '\0'..='\x1f' => format!("\\u{:04x}", u32::from(character)),
        other => other.to_string(),
    };
    format!("\"{}\"", text.chars().map(escaped).collect::<String>())
}

const FILE: &str = "{\"file\":\"";

/// JSON lines with the escapes of their file names as they are made here: a character may be
/// escaped in several ways. A line that has no right string stays as it is.
pub fn with_own_escapes(lines: &[u8]) -> Vec<u8> {
    let text = String::from_utf8_lossy(lines);
    let mut all = String::new();
    for line in text.split_inclusive('\n') {
        match line.strip_prefix(FILE).and_then(unescaped) {
            Some((name, rest)) => {
                all.push_str(&FILE[..FILE.len() - 1]);
                all.push_str(&string(&name));
                all.push_str(rest);
            }
            None => all.push_str(line),
        }
    }
    all.into_bytes()
}

/// The text of a JSON string up to its closing quote, and what follows that.
fn unescaped(text: &str) -> Option<(String, &str)> {
    let mut name = String::new();
    let mut rest = text.chars();
    loop {
        match rest.next()? {
            '"' => return Some((name, rest.as_str())),
            '\\' => name.push(match rest.next()? {
                'n' => '\n',
                't' => '\t',
                'r' => '\r',
                'b' => '\x08',
                'f' => '\x0c',
                'u' => {
                    let digits = rest.as_str().get(..4)?;
                    rest = rest.as_str()[4..].chars();
                    char::from_u32(u32::from_str_radix(digits, 16).ok()?)?
                }
                other @ ('"' | '\\' | '/') => other,
                _ => return None,
            }),
            '\0'..='\x1f' => return None,
            other => name.push(other),
        }
    }
}
