//! The header of a PLY file: what elements follow, and of what properties.
use quads::LIMIT;
use std::io::{BufRead, Read};

/// How the values are written.
#[derive(Clone, Copy, Debug, PartialEq)]
pub enum Format {
    /// As text.
    Ascii,
    /// Binary, the low byte first.
    LittleEndian,
    /// Binary, the high byte first.
    BigEndian,
}

/// The types of values, by their kind and bits.
#[derive(Clone, Copy, Debug, PartialEq)]
pub enum Scalar {
    I8,
    U8,
    I16,
    U16,
    I32,
    U32,
    F32,
    F64,
}

impl Scalar {
    /// The type of a name, in the old or the new spelling.
    fn of(name: &str) -> Result<Scalar, String> {
        match name {
            "char" | "int8" => Ok(Scalar::I8),
            "uchar" | "uint8" => Ok(Scalar::U8),
            "short" | "int16" => Ok(Scalar::I16),
            "ushort" | "uint16" => Ok(Scalar::U16),
            "int" | "int32" => Ok(Scalar::I32),
            "uint" | "uint32" => Ok(Scalar::U32),
            "float" | "float32" => Ok(Scalar::F32),
            "double" | "float64" => Ok(Scalar::F64),
            _ => Err(format!("{name} is no type of a PLY file")),
        }
    }
}

/// A property: one value, or a list with the type of its length.
#[derive(Clone, Debug, PartialEq)]
pub struct Property {
    /// Its name.
    pub name: String,
    /// The type of the length, of a list.
    pub length: Option<Scalar>,
    /// The type of a value.
    pub scalar: Scalar,
}

/// An element, as `vertex`: how many there are, and what each has.
#[derive(Clone, Debug, PartialEq)]
pub struct Element {
    /// Its name.
    pub name: String,
    /// How many there are.
    pub count: u64,
    /// What each has.
    pub properties: Vec<Property>,
}

/// A header.
#[derive(Clone, Debug, PartialEq)]
pub struct Header {
    /// How the values are written.
    pub format: Format,
    /// The comments.
    pub comments: Vec<String>,
    /// The elements.
    pub elements: Vec<Element>,
}

/// The most bytes of a header.
const MOST_BYTES: u64 = 1 << 20;

/// The next line, with its end.
fn bytes(input: &mut dyn BufRead) -> Result<Vec<u8>, String> {
    let mut bytes = vec![];
    input.read_until(b'\n', &mut bytes).map_err(|error| error.to_string())?;
    Ok(bytes)
}

/// The next line as text, without its end.
fn line(input: &mut dyn BufRead) -> Result<String, String> {
    let text = String::from_utf8(bytes(input)?).map_err(|_| "the header is not text")?;
    let text = text.strip_suffix('\n').ok_or("the header does not end")?;
    Ok(text.trim_end_matches('\r').to_string())
}

impl Header {
    /// The header that an input begins with. What is left of the input is the values.
    pub fn parse(input: &mut dyn BufRead) -> Result<Header, String> {
        let mut input = input.take(MOST_BYTES);
        if !matches!(&bytes(&mut input)?[..], b"ply\n" | b"ply\r\n") {
            return Err("it is no PLY file: it does not begin with `ply`".into());
        }
        let (mut format, mut comments, mut elements) = (None, vec![], Vec::<Element>::new());
        loop {
            let text = line(&mut input)?;
            let words: Vec<&str> = text.split_ascii_whitespace().collect();
            match words[..] {
                ["end_header"] => break,
                ["comment", ..] => comments.push(text.trim()["comment".len()..].trim().to_string()),
                ["obj_info", ..] | [] => {}
                ["format", name, _] => format = Some(format_of(name)?),
                ["element", name, count] => elements.push(element(name, count)?),
                ["property", ref words @ ..] => match elements.last_mut() {
                    Some(element) => element.properties.push(property(words)?),
                    None => return Err("a property comes before the first element".into()),
                },
                _ => return Err(format!("the header's line `{text}` is not known")),
            }
        }
        bounded(&elements, "vertex", "points")?;
        bounded(&elements, "face", "quads")?;
        let format = format.ok_or("the header names no format")?;
        Ok(Header { format, comments, elements })
    }
}

/// Whether a sheet can hold all elements of a name.
fn bounded(elements: &[Element], name: &str, what: &str) -> Result<(), String> {
    let counts = elements.iter().filter(|element| element.name == name).map(|element| element.count);
    let count = counts.fold(0, u64::saturating_add);
    if count > LIMIT as u64 { Err(format!("it has {count} {what}; a sheet has at most {LIMIT}")) } else { Ok(()) }
}

/// The format of a name.
fn format_of(name: &str) -> Result<Format, String> {
    match name {
        "ascii" => Ok(Format::Ascii),
        "binary_little_endian" => Ok(Format::LittleEndian),
        "binary_big_endian" => Ok(Format::BigEndian),
        _ => Err(format!("{name} is no format of a PLY file")),
    }
}

/// An element without properties so far.
fn element(name: &str, count: &str) -> Result<Element, String> {
    let count = count.parse().map_err(|_| format!("{count} is no number of elements"))?;
    Ok(Element { name: name.into(), count, properties: vec![] })
}

/// The property of the words after `property`.
fn property(words: &[&str]) -> Result<Property, String> {
    match *words {
        ["list", length, scalar, name] => {
            Ok(Property { name: name.into(), length: Some(Scalar::of(length)?), scalar: Scalar::of(scalar)? })
        }
        [scalar, name] => Ok(Property { name: name.into(), length: None, scalar: Scalar::of(scalar)? }),
        _ => Err(format!("the property `{}` is not known", words.join(" "))),
    }
}
