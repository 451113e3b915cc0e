//! Rows of fields in the form of RFC 4180, whatever they are about. Lines may also end in a line feed alone.

use std::borrow::Cow;

/// What some programs put before the first field of a file.
const BYTE_ORDER_MARK: &[u8] = b"\xEF\xBB\xBF";

/// A row with the line at which it begins: its fields, or what is wrong with its form.
pub struct Row {
    pub line: usize,
    pub fields: Result<Vec<Vec<u8>>, &'static str>,
}

/// What is read at the front of some bytes and the bytes past it, or what is wrong there.
type Front<'a, T> = Result<(T, &'a [u8]), &'static str>;

/// Reads all rows. Behind one that is malformed reading goes on at the next line, so that each of several is found.
pub fn read(bytes: &[u8]) -> Vec<Row> {
    let mut rest = unmarked(bytes);
    let mut rows = Vec::new();
    let mut line = 1;
    while !rest.is_empty() {
        let (fields, past) = match read_row(rest) {
            Ok((fields, past)) => (Ok(fields), past),
            Err(fault) => (Err(fault), past_line(rest)),
        };
        rows.push(Row { line, fields });
        let read = &rest[..rest.len() - past.len()];
        line += read.iter().filter(|byte| **byte == b'\n').count();
        rest = past;
    }
    rows
}

/// The first line without its end, to be shown where it is not the row that was expected.
pub fn first_line(bytes: &[u8]) -> &[u8] {
    let line = unmarked(bytes).split(|byte| *byte == b'\n').next().unwrap_or(b"");
    line.strip_suffix(b"\r").unwrap_or(line)
}

/// The bytes behind the mark that some programs put first.
fn unmarked(bytes: &[u8]) -> &[u8] {
    bytes.strip_prefix(BYTE_ORDER_MARK).unwrap_or(bytes)
}

/// The bytes past the first line.
fn past_line(bytes: &[u8]) -> &[u8] {
    let end = bytes.iter().position(|byte| *byte == b'\n').map_or(bytes.len(), |end| end + 1);
    &bytes[end..]
}

/// Reads the fields up to the end of a row.
fn read_row(bytes: &[u8]) -> Front<'_, Vec<Vec<u8>>> {
    let mut fields = Vec::new();
    let mut rest = bytes;
    loop {
        let (field, past) = read_field(rest)?;
        fields.push(field);
        match past {
            [b',', past @ ..] => rest = past,
            [] => return Ok((fields, past)),
            [b'\n', past @ ..] | [b'\r', b'\n', past @ ..] => return Ok((fields, past)),
            [b'\r', ..] => return Err("a carriage return stands without a line feed"),
            _ => return Err("a quoted field goes on behind its closing quote"),
        }
    }
}

/// Reads one field, quoted or not.
fn read_field(bytes: &[u8]) -> Front<'_, Vec<u8>> {
    if let Some(inside) = bytes.strip_prefix(b"\"") {
        return read_quoted(inside);
    }
    let end = bytes.iter().position(|byte| b",\r\n".contains(byte)).unwrap_or(bytes.len());
    let (field, past) = bytes.split_at(end);
    if field.contains(&b'"') {
        return Err("a quote stands inside a field that is not quoted");
    }
    Ok((field.to_vec(), past))
}

/// Reads a field behind its opening quote; two quotes in it stand for one.
fn read_quoted(bytes: &[u8]) -> Front<'_, Vec<u8>> {
    let mut field = Vec::new();
    let mut rest = bytes;
    loop {
        let end = rest.iter().position(|byte| *byte == b'"').ok_or("a quote is opened and not closed")?;
        field.extend_from_slice(&rest[..end]);
        rest = &rest[end + 1..];
        match rest.strip_prefix(b"\"") {
            Some(past) => rest = past,
            None => return Ok((field, rest)),
        }
        field.push(b'"');
    }
}

/// Writes a field, quoted where that is needed.
pub fn field(text: &str) -> Cow<'_, str> {
    if text.contains([',', '"', '\r', '\n']) {
        Cow::Owned(format!("\"{}\"", text.replace('"', "\"\"")))
    } else {
        Cow::Borrowed(text)
    }
}
