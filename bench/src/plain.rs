// A plain Rust reader of the same rules, in page 1252, as one would write it without proofs.

#[derive(Clone, Copy)]
struct State {
    silent: bool,
    tag: bool,
    suppressed: bool,
    fallback: u32,
}

enum Token<'a> {
    Open,
    Close,
    Word(&'a [u8], Option<i32>),
    Hex(u8),
    Symbol(u8),
    Text(u8),
}

struct Found<'a> {
    token: Token<'a>,
    place: usize,
    end: usize,
}

// Refusals as their numbers and places.
pub type Refusal = (u8, usize);

const HIGH: [u16; 32] = [
    0x20AC, 0, 0x201A, 0x0192, 0x201E, 0x2026, 0x2020, 0x2021, 0x02C6, 0x2030, 0x0160, 0x2039, 0x0152, 0, 0x017D, 0, 0, 0x2018,
    0x2019, 0x201C, 0x201D, 0x2022, 0x2013, 0x2014, 0x02DC, 0x2122, 0x0161, 0x203A, 0x0153, 0, 0x017E, 0x0178,
];

fn decode(byte: u8) -> Option<char> {
    match byte {
        0x80..=0x9F => match HIGH[usize::from(byte - 0x80)] {
            0 => None,
            unit => char::from_u32(u32::from(unit)),
        },
        byte => Some(char::from(byte)),
    }
}

fn hex(byte: Option<&u8>) -> Option<u8> {
    byte.and_then(|b| char::from(*b).to_digit(16)).map(|d| d as u8)
}

fn word(bytes: &[u8], place: usize) -> Result<Found<'_>, Refusal> {
    let start = place + 1;
    let mut at = start;
    while at < bytes.len() && bytes[at].is_ascii_alphabetic() {
        at += 1;
    }
    let name = &bytes[start..at];
    if name.len() > 32 {
        return Err((2, place));
    }
    let negative = bytes.get(at) == Some(&b'-') && bytes.get(at + 1).is_some_and(u8::is_ascii_digit);
    let digits = if negative { at + 1 } else { at };
    let mut value = 0i64;
    let mut end = digits;
    while end < bytes.len() && bytes[end].is_ascii_digit() {
        if end - digits == 10 {
            return Err((2, place));
        }
        value = value * 10 + i64::from(bytes[end] - b'0');
        end += 1;
    }
    let number = if end > digits {
        let signed = if negative { -value } else { value };
        Some(i32::try_from(signed).map_err(|_| (2, place))?)
    } else {
        end = at;
        None
    };
    if bytes.get(end) == Some(&b' ') {
        end += 1;
    }
    if name == b"bin" {
        if let Some(count) = number {
            let count = usize::try_from(count).map_err(|_| (2, place))?;
            if count > bytes.len() - end {
                return Err((2, place));
            }
            end += count;
        }
    }
    Ok(Found { token: Token::Word(name, number), place, end })
}

fn next(bytes: &[u8], mut at: usize) -> Result<Option<Found<'_>>, Refusal> {
    while matches!(bytes.get(at), Some(b'\r' | b'\n')) {
        at += 1;
    }
    let Some(first) = bytes.get(at) else { return Ok(None) };
    let place = at;
    let one = |token| Ok(Some(Found { token, place, end: place + 1 }));
    match first {
        b'{' => one(Token::Open),
        b'}' => one(Token::Close),
        b'\\' => match bytes.get(at + 1) {
            None => Err((2, place)),
            Some(b'\'') => match (hex(bytes.get(at + 2)), hex(bytes.get(at + 3))) {
                (Some(high), Some(low)) => Ok(Some(Found { token: Token::Hex(high * 16 + low), place, end: at + 4 })),
                _ => Err((2, place)),
            },
            Some(b) if b.is_ascii_alphabetic() => word(bytes, place).map(Some),
            Some(b) => Ok(Some(Found { token: Token::Symbol(*b), place, end: at + 2 })),
        },
        byte => one(Token::Text(*byte)),
    }
}

fn first_group(bytes: &[u8]) -> Result<usize, Refusal> {
    if !bytes.starts_with(b"{\\rtf1") || bytes.get(6).is_some_and(u8::is_ascii_digit) {
        return Err((1, 0));
    }
    let mut open = Vec::new();
    let mut at = 0;
    while let Some(found) = next(bytes, at)? {
        match found.token {
            Token::Open if open.len() == 64 => return Err((3, found.place)),
            Token::Open => open.push(found.place),
            Token::Close => {
                open.pop();
                if open.is_empty() {
                    return Ok(found.end);
                }
            }
            _ => {}
        }
        at = found.end;
    }
    Err((4, open.last().copied().unwrap_or(0)))
}

fn kind(record: &[u8]) -> Result<bool, Refusal> {
    let mut at = 0;
    for left in (0..10).rev() {
        let Some(found) = next(record, at)? else { break };
        match found.token {
            Token::Word(b"fromhtml", Some(1)) => return Ok(true),
            Token::Word(b"fromtext", None) => return Ok(false),
            Token::Open | Token::Word(..) if left > 0 => {}
            _ => return Err((6, found.place)),
        }
        at = found.end;
    }
    Err((6, 0))
}

fn declared(record: &[u8]) -> Result<(), Refusal> {
    let mut at = 0;
    for _ in 0..10 {
        let Some(found) = next(record, at)? else { break };
        if let Token::Word(b"ansicpg", number) = found.token {
            return if number == Some(1252) { Ok(()) } else { Err((7, found.place)) };
        }
        at = found.end;
    }
    Err((7, 0))
}

struct Content<'a> {
    bytes: &'a mut [u8],
    len: usize,
    half: Option<(u16, usize)>,
}

impl Content<'_> {
    fn text(&mut self, text: &str) -> Result<(), Refusal> {
        if let Some((_, place)) = self.half {
            return Err((10, place));
        }
        self.raw(text.as_bytes());
        Ok(())
    }

    fn raw(&mut self, bytes: &[u8]) {
        if let Some(room) = self.bytes.get_mut(self.len..self.len + bytes.len()) {
            room.copy_from_slice(bytes);
        }
        self.len += bytes.len();
    }

    fn character(&mut self, character: char) {
        let mut room = [0; 4];
        self.raw(character.encode_utf8(&mut room).as_bytes());
    }

    fn byte(&mut self, byte: u8, place: usize) -> Result<(), Refusal> {
        if let Some((_, place)) = self.half {
            return Err((10, place));
        }
        match decode(byte) {
            Some(character) => self.character(character),
            None => return Err((8, place)),
        }
        Ok(())
    }

    fn unit(&mut self, number: i32, place: usize) -> Result<(), Refusal> {
        let unit = match number {
            -32_768..=-1 => (number + 65_536) as u16,
            0..=65_535 => number as u16,
            _ => return Err(self.half.map_or((9, place), |half| (10, half.1))),
        };
        match (self.half.take(), unit) {
            (Some((high, _)), 0xDC00..=0xDFFF) => {
                let code = 0x10000 + ((u32::from(high) - 0xD800) << 10) + (u32::from(unit) - 0xDC00);
                self.character(char::from_u32(code).unwrap());
            }
            (Some((_, place)), _) => return Err((10, place)),
            (None, 0xD800..=0xDBFF) => self.half = Some((unit, place)),
            (None, 0xDC00..=0xDFFF) => return Err((10, place)),
            (None, _) => self.character(char::from_u32(u32::from(unit)).unwrap()),
        }
        Ok(())
    }
}

fn mark(name: &[u8], html: bool) -> Option<&'static str> {
    let (entity, character) = match name {
        b"lquote" => ("&lsquo;", "\u{2018}"),
        b"rquote" => ("&rsquo;", "\u{2019}"),
        b"ldblquote" => ("&ldquo;", "\u{201C}"),
        b"rdblquote" => ("&rdquo;", "\u{201D}"),
        b"bullet" => ("&bull;", "\u{2022}"),
        b"endash" => ("&ndash;", "\u{2013}"),
        b"emdash" => ("&mdash;", "\u{2014}"),
        b"~" => ("&nbsp;", "\u{A0}"),
        b"_" => ("&shy;", "\u{AD}"),
        _ => return None,
    };
    Some(if html { entity } else { character })
}

fn is_silent(name: &[u8]) -> bool {
    matches!(
        name,
        b"fonttbl" | b"colortbl" | b"stylesheet" | b"info" | b"pict" | b"object" | b"header" | b"headerl" | b"headerr" | b"headerf"
            | b"footer" | b"footerl" | b"footerr" | b"footerf" | b"footnote" | b"pntext"
    )
}

// What a token adds where nothing keeps it from having effect, and how many tokens are then skipped.
fn plain(found: &Found<'_>, html: bool, state: &mut State, content: &mut Content<'_>) -> Result<u32, Refusal> {
    match found.token {
        Token::Word(b"par" | b"line", _) => content.text("\r\n")?,
        Token::Word(b"tab", _) => content.text("\t")?,
        Token::Word(b"uc", Some(count)) if count >= 0 => state.fallback = count as u32,
        Token::Word(b"u", Some(number)) => {
            content.unit(number, found.place)?;
            return Ok(state.fallback);
        }
        Token::Word(name, _) => {
            if let Some(text) = mark(name, html) {
                content.text(text)?;
            }
        }
        Token::Symbol(b'\r' | b'\n') => content.text("\r\n")?,
        Token::Symbol(b'{') => content.text("{")?,
        Token::Symbol(b'}') => content.text("}")?,
        Token::Symbol(b'\\') => content.text("\\")?,
        Token::Symbol(byte) => {
            if let Some(text) = mark(&[byte], html) {
                content.text(text)?;
            }
        }
        Token::Hex(byte) | Token::Text(byte) => content.byte(byte, found.place)?,
        Token::Open | Token::Close => {}
    }
    Ok(0)
}

fn fill(record: &[u8], html: bool, content: &mut Content<'_>) -> Result<(), Refusal> {
    let mut outer = Vec::new();
    let mut state = State { silent: false, tag: false, suppressed: false, fallback: 1 };
    let mut skip = 0;
    let mut at = 1;
    while let Some(found) = next(record, at)? {
        at = found.end;
        match found.token {
            Token::Open => {
                outer.push(state);
                skip = 0;
                continue;
            }
            Token::Close => {
                skip = 0;
                match outer.pop() {
                    Some(around) => state = around,
                    None => break,
                }
                continue;
            }
            _ => {}
        }
        if skip > 0 {
            skip -= 1;
            continue;
        }
        if state.silent {
            continue;
        }
        let htmlrtf = matches!(found.token, Token::Word(b"htmlrtf", _));
        if html && state.suppressed && !htmlrtf {
            continue;
        }
        if !state.tag {
            match found.token {
                Token::Word(b"htmlrtf", number) if html => {
                    state.suppressed = number != Some(0);
                    continue;
                }
                Token::Symbol(b'*') => {
                    let tag = matches!(next(record, at)?, Some(Found { token: Token::Word(b"htmltag", _), .. }));
                    if html && tag {
                        state.tag = true;
                    } else {
                        state.silent = true;
                    }
                    continue;
                }
                Token::Word(name, _) if is_silent(name) => {
                    state.silent = true;
                    continue;
                }
                _ => {}
            }
        }
        skip = plain(&found, html, &mut state, content)?;
    }
    content.half.map_or(Ok(()), |half| Err((10, half.1)))
}

// The kind and the content's length, or the refusal. A refused result is wiped.
pub fn read(bytes: &[u8], result: &mut [u8]) -> Result<(bool, usize), Refusal> {
    result.fill(0);
    let told = read_into(bytes, result);
    if told.is_err() {
        result.fill(0);
    }
    told
}

fn read_into(bytes: &[u8], result: &mut [u8]) -> Result<(bool, usize), Refusal> {
    if bytes.len() > 32_768 {
        return Err((12, 0));
    }
    let end = first_group(bytes)?;
    if let Some(at) = bytes[end..].iter().position(|b| !matches!(b, b'\r' | b'\n' | 0)) {
        return Err((5, end + at));
    }
    let record = &bytes[..end];
    let html = kind(record)?;
    declared(record)?;
    let room = result.len();
    let mut content = Content { bytes: result, len: 0, half: None };
    fill(record, html, &mut content)?;
    if content.len > room {
        return Err((26, 0));
    }
    Ok((html, content.len))
}
