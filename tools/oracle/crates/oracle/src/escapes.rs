//! Texts on one line, as tables and commands have them. tools/common.py reads and writes them the same way; escapes.tsv holds both to it.

/// The bytes of a text written on one line: `\n \r \t \\`, `\u{X}` a character, `\xHH` a byte, `\*N{..}` N times what the braces hold (its own `}` written
/// `\u{7d}`). Any other backslash stands for itself.
pub fn unescape(text: &str) -> Vec<u8> {
    let mut out = Vec::new();
    let mut rest = text;
    while let Some(at) = rest.find('\\') {
        out.extend_from_slice(&rest.as_bytes()[..at]);
        rest = &rest[at + 1..];
        match escaped(rest) {
            Some((bytes, used)) => {
                out.extend(bytes);
                rest = &rest[used..];
            }
            None => out.push(b'\\'),
        }
    }
    out.extend_from_slice(rest.as_bytes());
    out
}

/// What an escape stands for and how long it is behind its backslash; nothing where there is none.
fn escaped(tail: &str) -> Option<(Vec<u8>, usize)> {
    match tail.chars().next()? {
        'n' => Some((vec![b'\n'], 1)),
        'r' => Some((vec![b'\r'], 1)),
        't' => Some((vec![b'\t'], 1)),
        '\\' => Some((vec![b'\\'], 1)),
        'u' => {
            let used = braced(tail)?;
            let c = char::from_u32(hex(&tail[2..used - 1])?)?;
            Some((c.to_string().into_bytes(), used))
        }
        'x' => Some((vec![hex(tail.get(1..3)?)? as u8], 3)),
        '*' => {
            let digits = tail[1..].bytes().take_while(u8::is_ascii_digit).count();
            let count: usize = tail[1..1 + digits].parse().ok()?;
            let body = tail[1 + digits..].strip_prefix('{')?;
            let end = body_end(body)?;
            Some((unescape(&body[..end]).repeat(count), 1 + digits + 1 + end + 1))
        }
        _ => None,
    }
}

/// How long `u{X}` is, with hex digits in its braces.
fn braced(tail: &str) -> Option<usize> {
    let digits = tail.strip_prefix("u{")?.bytes().take_while(u8::is_ascii_hexdigit).count();
    (digits > 0 && tail[2 + digits..].starts_with('}')).then_some(digits + 3)
}

/// Where the brace is that closes a repeated piece; braces of `\u{X}` inside it are passed over.
fn body_end(body: &str) -> Option<usize> {
    let mut at = 0;
    loop {
        let c = body[at..].chars().next()?;
        at += match c {
            '}' => return Some(at),
            '\\' => {
                let behind = &body[at + 1..];
                1 + if behind.starts_with('u') { braced(behind)? } else { behind.chars().next()?.len_utf8() }
            }
            _ => c.len_utf8(),
        };
    }
}

fn hex(digits: &str) -> Option<u32> {
    digits.bytes().all(|b| b.is_ascii_hexdigit()).then(|| u32::from_str_radix(digits, 16).ok()).flatten()
}

/// A text on one line: `unescape` gives the bytes back.
pub fn escape(text: &[u8]) -> String {
    let mut out = String::new();
    for chunk in text.utf8_chunks() {
        for c in chunk.valid().chars() {
            match c {
                '\n' => out.push_str("\\n"),
                '\r' => out.push_str("\\r"),
                '\t' => out.push_str("\\t"),
                '\\' => out.push_str("\\\\"),
                ' '..='~' => out.push(c),
                other => out.push_str(&format!("\\u{{{:x}}}", u32::from(other))),
            }
        }
        for byte in chunk.invalid() {
            out.push_str(&format!("\\x{byte:02x}"));
        }
    }
    out
}
