//! Reads a sheet.
use super::header::{Element, Header, Property};
use super::values::Values;
use crate::labels;
use quads::Sheet;
use std::io::BufRead;

/// One element's values, by the names of their properties.
struct Record<'a> {
    properties: &'a [Property],
    values: Vec<Vec<f64>>,
}

/// The values of a list that are kept: the corners of a quad, and one more.
const KEPT: usize = 5;

impl Record<'_> {
    /// The first values of a property.
    fn list(&self, name: &str) -> Option<&[f64]> {
        let place = self.properties.iter().position(|property| property.name == name)?;
        self.values.get(place).map(Vec::as_slice)
    }

    /// The value of a property.
    fn value(&self, name: &str) -> Option<f64> {
        self.list(name)?.first().copied()
    }
}

/// The sheet that an input begins with, and its comments. A quad that has neither a label nor a colour gets the label
/// that is given, if one is.
pub fn read(input: &mut dyn BufRead, given: Option<u8>) -> Result<(Sheet, Vec<String>), String> {
    let header = Header::parse(input)?;
    let mut values = Values::new(header.format, input);
    let mut sheet = Sheet::default();
    for element in &header.elements {
        each(element, &mut values, |record| match element.name.as_str() {
            "vertex" => {
                sheet.points.push(point(record)?);
                Ok(())
            }
            "face" => {
                sheet.quads.push(quad(record)?);
                sheet.labels.push(label(record, given)?);
                Ok(())
            }
            _ => Ok(()),
        })?;
    }
    Ok((sheet, header.comments))
}

/// Hands on each record of an element; what is wrong is told with the record's number.
fn each(
    element: &Element, values: &mut Values, mut take: impl FnMut(&Record) -> Result<(), String>,
) -> Result<(), String> {
    if element.properties.is_empty() {
        return Ok(());
    }
    let mut record = Record { properties: &element.properties, values: vec![vec![]; element.properties.len()] };
    for number in 0..element.count {
        fill(&mut record, values)
            .and_then(|()| take(&record))
            .map_err(|wrong| format!("{} {number}: {wrong}", element.name))?;
    }
    Ok(())
}

/// Reads the next record.
fn fill(record: &mut Record, values: &mut Values) -> Result<(), String> {
    for (property, list) in record.properties.iter().zip(&mut record.values) {
        list.clear();
        let length = match property.length {
            Some(scalar) => whole(values.next(scalar)?, "the length of a list")?,
            None => 1,
        };
        for _ in 0..length {
            let value = values.next(property.scalar)?;
            if list.len() < KEPT {
                list.push(value);
            }
        }
    }
    Ok(())
}

/// A value as a whole number from 0.
fn whole(value: f64, what: &str) -> Result<u32, String> {
    if value >= 0.0 && value <= f64::from(u32::MAX) && value.fract() == 0.0 {
        return Ok(value as u32);
    }
    Err(format!("{what} is {value}, which is no whole number from 0 to {}", u32::MAX))
}

/// The point of a vertex.
fn point(record: &Record) -> Result<[f64; 3], String> {
    let coordinate = |name: &str| record.value(name).ok_or_else(|| format!("it has no {name}"));
    Ok([coordinate("x")?, coordinate("y")?, coordinate("z")?])
}

/// The corners of a face.
fn quad(record: &Record) -> Result<[u32; 4], String> {
    let corners = record.list("vertex_indices").or_else(|| record.list("vertex_index")).unwrap_or_default();
    let &[a, b, c, d] = corners else {
        let corners = if corners.len() < KEPT { corners.len().to_string() } else { "more than 4".into() };
        return Err(format!("it has {corners} corners; a sheet has quads only"));
    };
    let number = |corner| whole(corner, "a corner");
    Ok([number(a)?, number(b)?, number(c)?, number(d)?])
}

/// The label of a face: its own property, or the label of its colour, or the one that is given.
fn label(record: &Record, given: Option<u8>) -> Result<u8, String> {
    if let Some(value) = record.value("label") {
        let label = whole(value, "its label")?;
        return u8::try_from(label).map_err(|_| format!("its label is {label}"));
    }
    let part = |name: &str| record.value(name).map(|value| value as u8);
    let (Some(red), Some(green), Some(blue)) = (part("red"), part("green"), part("blue")) else {
        return given.ok_or_else(|| "it has neither a label nor a colour; give --label N before `read`".into());
    };
    labels::label([red, green, blue]).ok_or_else(|| format!("the colour {red} {green} {blue} is that of no label"))
}
