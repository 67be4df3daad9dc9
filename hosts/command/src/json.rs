//! JSON, as much of it as settings and `inspect --json` need. A number is kept as it was written.

use std::fmt::Write;

#[derive(Clone, Debug, PartialEq)]
pub enum Json {
    Null,
    Bool(bool),
    Number(String),
    Text(String),
    List(Vec<Json>),
    Object(Vec<(String, Json)>),
}

const DEPTH_MOST: usize = 64;

/// What is wrong, and at which line and column.
pub fn parse(text: &str) -> Result<Json, String> {
    let mut reader = Reader { rest: text, all: text };
    let value = reader.value(0)?;
    reader.space();
    if reader.rest.is_empty() {
        Ok(value)
    } else {
        Err(reader.wrong("more after the end of the value"))
    }
}

struct Reader<'a> {
    rest: &'a str,
    all: &'a str,
}

impl Reader<'_> {
    fn wrong(&self, what: &str) -> String {
        let read = &self.all[..self.all.len() - self.rest.len()];
        let line = 1 + read.matches('\n').count();
        let column = 1 + read.rsplit('\n').next().unwrap_or("").chars().count();
        format!("line {line}, column {column}: {what}")
    }

    fn space(&mut self) {
        self.rest = self.rest.trim_start_matches([' ', '\t', '\n', '\r']);
    }

    fn take(&mut self, word: &str) -> bool {
        let found = self.rest.strip_prefix(word);
        self.rest = found.unwrap_or(self.rest);
        found.is_some()
    }

    fn value(&mut self, depth: usize) -> Result<Json, String> {
        self.space();
        if depth > DEPTH_MOST {
            return Err(self.wrong("values in values, too deep"));
        }
        match self.rest.chars().next() {
            Some('{') => self.object(depth),
            Some('[') => self.list(depth),
            Some('"') => self.text().map(Json::Text),
            Some('-' | '0'..='9') => self.number(),
            _ => match () {
                () if self.take("true") => Ok(Json::Bool(true)),
                () if self.take("false") => Ok(Json::Bool(false)),
                () if self.take("null") => Ok(Json::Null),
                () => Err(self.wrong("no JSON value")),
            },
        }
    }

    fn number(&mut self) -> Result<Json, String> {
        let end = self.rest.find(|c: char| !matches!(c, '0'..='9' | '-' | '+' | '.' | 'e' | 'E'));
        let (word, rest) = self.rest.split_at(end.unwrap_or(self.rest.len()));
        if !is_number(word) {
            return Err(self.wrong("a number that JSON has not"));
        }
        self.rest = rest;
        Ok(Json::Number(word.to_string()))
    }

    fn text(&mut self) -> Result<String, String> {
        self.rest = &self.rest[1..];
        let mut out = String::new();
        loop {
            let c = self.rest.chars().next().ok_or_else(|| self.wrong("a string without its end"))?;
            if (c as u32) < 32 {
                return Err(self.wrong("a string with a line break or control character"));
            }
            self.rest = &self.rest[c.len_utf8()..];
            match c {
                '"' => return Ok(out),
                '\\' => out.push(self.escape()?),
                c => out.push(c),
            }
        }
    }

    fn escape(&mut self) -> Result<char, String> {
        let c = self.rest.chars().next().ok_or_else(|| self.wrong("a string without its end"))?;
        let plain = match c {
            '"' | '\\' | '/' => c,
            'b' => '\u{8}',
            'f' => '\u{c}',
            'n' => '\n',
            'r' => '\r',
            't' => '\t',
            'u' => return self.unicode(),
            _ => return Err(self.wrong("an escape that JSON has not")),
        };
        self.rest = &self.rest[1..];
        Ok(plain)
    }

    fn unicode(&mut self) -> Result<char, String> {
        let mut units = vec![self.unit()?];
        if (0xd800..0xdc00).contains(&units[0]) && self.rest.starts_with("\\u") {
            self.rest = &self.rest[1..];
            units.push(self.unit()?);
        }
        let text = String::from_utf16(&units).map_err(|_| self.wrong("an escape that is no character"))?;
        Ok(text.chars().next().expect("one character"))
    }

    fn unit(&mut self) -> Result<u16, String> {
        let digits = self.rest.get(1..5).filter(|d| d.bytes().all(|b| b.is_ascii_hexdigit()));
        let unit = digits
            .and_then(|d| u16::from_str_radix(d, 16).ok())
            .ok_or_else(|| self.wrong("\\u without four hex digits"))?;
        self.rest = &self.rest[5..];
        Ok(unit)
    }

    fn list(&mut self, depth: usize) -> Result<Json, String> {
        self.take("[");
        let mut out = Vec::new();
        self.space();
        if self.take("]") {
            return Ok(Json::List(out));
        }
        loop {
            out.push(self.value(depth + 1)?);
            self.space();
            if self.take("]") {
                return Ok(Json::List(out));
            }
            if !self.take(",") {
                return Err(self.wrong("neither ',' nor ']' in a list"));
            }
        }
    }

    fn object(&mut self, depth: usize) -> Result<Json, String> {
        self.take("{");
        let mut out: Vec<(String, Json)> = Vec::new();
        self.space();
        if self.take("}") {
            return Ok(Json::Object(out));
        }
        loop {
            self.space();
            if !self.rest.starts_with('"') {
                return Err(self.wrong("no name in quotes"));
            }
            let name = self.text()?;
            if out.iter().any(|(n, _)| *n == name) {
                return Err(self.wrong(&format!("'{name}' for the second time")));
            }
            self.space();
            if !self.take(":") {
                return Err(self.wrong("no ':' after a name"));
            }
            out.push((name, self.value(depth + 1)?));
            self.space();
            if self.take("}") {
                return Ok(Json::Object(out));
            }
            if !self.take(",") {
                return Err(self.wrong("neither ',' nor '}' in an object"));
            }
        }
    }
}

/// JSON's grammar of numbers: no leading zero, digits on both sides of the point.
fn is_number(word: &str) -> bool {
    let word = word.strip_prefix('-').unwrap_or(word);
    let (mantissa, exponent) = match word.split_once(['e', 'E']) {
        Some((m, e)) => (m, Some(e.strip_prefix(['+', '-']).unwrap_or(e))),
        None => (word, None),
    };
    let (whole, part) = match mantissa.split_once('.') {
        Some((w, p)) => (w, Some(p)),
        None => (mantissa, None),
    };
    let digits = |s: &str| !s.is_empty() && s.bytes().all(|b| b.is_ascii_digit());
    digits(whole) && (whole == "0" || !whole.starts_with('0')) && part.is_none_or(digits) && exponent.is_none_or(digits)
}

/// A float as JSON: the shortest decimal that reads back to it; what JSON has no number for is a string.
pub fn float(x: f64) -> Json {
    if x.is_finite() {
        Json::Number(format!("{x:?}"))
    } else {
        Json::Text(format!("{x:?}").to_lowercase())
    }
}

pub fn whole(n: impl std::fmt::Display) -> Json {
    Json::Number(n.to_string())
}

pub fn text(s: impl Into<String>) -> Json {
    Json::Text(s.into())
}

pub fn object<const N: usize>(fields: [(&str, Json); N]) -> Json {
    Json::Object(fields.into_iter().map(|(name, value)| (name.to_string(), value)).collect())
}

impl Json {
    /// With two spaces a level; lists of numbers, and objects of plain values inside a list, on one line.
    pub fn pretty(&self) -> String {
        let mut out = String::new();
        self.write(&mut out, 0);
        out.push('\n');
        out
    }

    /// On one line, and safe inside a script of a page.
    pub fn line(&self) -> String {
        let mut out = String::new();
        self.write_line(&mut out);
        out.replace('<', "\\u003c")
    }

    fn plain(&self) -> bool {
        !matches!(self, Json::List(_) | Json::Object(_))
    }

    fn write(&self, out: &mut String, depth: usize) {
        let indent = |out: &mut String, n: usize| {
            out.push('\n');
            out.extend(std::iter::repeat_n("  ", n));
        };
        match self {
            Json::List(list) if !list.iter().all(Json::plain) => {
                out.push('[');
                for (i, value) in list.iter().enumerate() {
                    out.push_str(if i > 0 { "," } else { "" });
                    indent(out, depth + 1);
                    match value {
                        Json::Object(_) => value.write_line(out),
                        _ => value.write(out, depth + 1),
                    }
                }
                indent(out, depth);
                out.push(']');
            }
            Json::Object(fields) if !fields.is_empty() => {
                out.push('{');
                for (i, (name, value)) in fields.iter().enumerate() {
                    out.push_str(if i > 0 { "," } else { "" });
                    indent(out, depth + 1);
                    quoted(out, name);
                    out.push_str(": ");
                    value.write(out, depth + 1);
                }
                indent(out, depth);
                out.push('}');
            }
            _ => self.write_line(out),
        }
    }

    fn write_line(&self, out: &mut String) {
        match self {
            Json::Null => out.push_str("null"),
            Json::Bool(b) => out.push_str(if *b { "true" } else { "false" }),
            Json::Number(n) => out.push_str(n),
            Json::Text(s) => quoted(out, s),
            Json::List(list) => {
                out.push('[');
                for (i, value) in list.iter().enumerate() {
                    out.push_str(if i > 0 { ", " } else { "" });
                    value.write_line(out);
                }
                out.push(']');
            }
            Json::Object(fields) => {
                out.push('{');
                for (i, (name, value)) in fields.iter().enumerate() {
                    out.push_str(if i > 0 { ", " } else { "" });
                    quoted(out, name);
                    out.push_str(": ");
                    value.write_line(out);
                }
                out.push('}');
            }
        }
    }
}

fn quoted(out: &mut String, s: &str) {
    out.push('"');
    for c in s.chars() {
        match c {
            '"' => out.push_str("\\\""),
            '\\' => out.push_str("\\\\"),
            '\n' => out.push_str("\\n"),
            '\t' => out.push_str("\\t"),
            c if (c as u32) < 32 => write!(out, "\\u{:04x}", c as u32).expect("a string takes all"),
            c => out.push(c),
        }
    }
    out.push('"');
}

#[cfg(test)]
mod tests {
    use super::*;

    #[test]
    fn reads_and_writes_again() {
        let source =
            "{\"a\": [1, -2.5e3, true, null], \"b\\u00e9\\n\": {\"c\": \"x \\ud83d\\ude00\"}, \"d\": {}, \"e\": []}";
        let value = parse(source).unwrap();
        assert_eq!(parse(&value.pretty()).unwrap(), value);
        assert_eq!(parse(&value.line()).unwrap(), value);
        assert_eq!(text("</script>").line(), "\"\\u003c/script>\"");
    }

    #[test]
    fn names_the_place_of_what_is_wrong() {
        let wrong = |source: &str| parse(source).unwrap_err();
        assert_eq!(wrong("{\n  \"a\": 01}"), "line 2, column 8: a number that JSON has not");
        assert_eq!(wrong("{\"a\": 1, \"a\": 2}"), "line 1, column 13: 'a' for the second time");
        assert_eq!(wrong("{\"a\": 1"), "line 1, column 8: neither ',' nor '}' in an object");
        assert_eq!(wrong("[1 2]"), "line 1, column 4: neither ',' nor ']' in a list");
        assert_eq!(wrong("[] x"), "line 1, column 4: more after the end of the value");
        assert_eq!(wrong(""), "line 1, column 1: no JSON value");
        assert_eq!(wrong("\"a"), "line 1, column 3: a string without its end");
        for bad in
            ["-", "1.", ".5", "+1", "1e", "00", "{a: 1}", "\"\\x\"", "\"\\ud800\"", "\"\\u12\"", "{\"a\" 1}", "tru"]
        {
            assert!(parse(bad).is_err(), "{bad}");
        }
        assert!(parse(&"[".repeat(100)).unwrap_err().contains("too deep"));
    }

    #[test]
    fn floats_read_back() {
        for x in [0.0, -0.0, 5e-5, 0.1, 1e300, f64::MIN_POSITIVE, 600.0] {
            let Json::Number(word) = float(x) else { panic!() };
            assert!(is_number(&word), "{word}");
            assert_eq!(word.parse::<f64>().unwrap().to_bits(), x.to_bits());
        }
        assert_eq!(float(f64::NAN), text("nan"));
        assert_eq!(float(f64::NEG_INFINITY), text("-inf"));
    }
}
