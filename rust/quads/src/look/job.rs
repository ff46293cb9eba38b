//! What is wrong with a job file.
use crate::cause::{Cause, Section, TrailerFault};
use crate::sheet::Counts;
use crate::sizes::LARGEST_JOB;
use std::array;

/// The bytes in front of the points.
const HEADER: u32 = 64;

/// The bytes of a trailer without a sum, and those of one with it.
const PLAIN: u32 = 20;
const SUMMED: u32 = 28;

/// The fewest bytes of a file.
const LEAST: usize = (HEADER + PLAIN) as usize;

/// The last bytes of a file, so many.
fn last<const N: usize>(file: &[u8]) -> Option<&[u8; N]> {
    file.last_chunk()
}

/// The last number of a file, the length of its trailer. None where the file is too short for any.
fn length(file: &[u8]) -> Option<u32> {
    last(file).filter(|_| file.len() >= LEAST).map(|bytes| u32::from_le_bytes(*bytes))
}

/// The starts of points, quads, labels and trailer, as a trailer of this length says them. None where the file is too
/// short for one.
fn starts(file: &[u8], length: u32) -> Option<[u32; 4]> {
    let at = file.len().checked_sub(length as usize).filter(|&at| at >= HEADER as usize)?;
    let words = file[at..].first_chunk::<16>()?.as_chunks().0;
    Some(array::from_fn(|i| u32::from_le_bytes(words[i])))
}

/// What is wrong with a section that starts and ends at these bytes.
fn section(section: Section, from: u32, to: u32) -> Option<TrailerFault> {
    if to < from {
        return Some(TrailerFault::Order { section, from, to });
    }
    let bytes = to - from;
    (!bytes.is_multiple_of(section.element())).then_some(TrailerFault::Part { section, bytes })
}

/// The first rule that the end of a file breaks.
fn broken(file: &[u8]) -> Option<TrailerFault> {
    let bytes = file.len();
    let Some(length) = length(file) else {
        return Some(TrailerFault::Short(bytes));
    };
    if ![PLAIN, SUMMED].contains(&length) {
        return Some(TrailerFault::Length(length));
    }
    let Some([points, quads, labels, trailer]) = starts(file, length) else {
        return Some(TrailerFault::Short(bytes));
    };
    if points != HEADER {
        return Some(TrailerFault::Start(points));
    }
    let ends = trailer as usize + length as usize == bytes;
    section(Section::Points, points, quads)
        .or_else(|| section(Section::Quads, quads, labels))
        .or_else(|| section(Section::Labels, labels, trailer))
        .or_else(|| (!ends).then_some(TrailerFault::End { start: trailer, length, bytes }))
}

/// A good trailer in front of the last byte, and how many bytes are behind it.
fn behind(file: &[u8]) -> Option<TrailerFault> {
    let end = (LEAST..file.len().min(LARGEST_JOB + 1)).rev().find(|&end| broken(&file[..end]).is_none())?;
    Some(TrailerFault::Behind { end, bytes: file.len() - end })
}

/// What is wrong with the trailer of a file.
pub fn trailer(file: &[u8]) -> Option<Cause> {
    let found = broken(file)?;
    Some(Cause::Trailer(behind(file).unwrap_or(found)))
}

/// How many elements a section has that starts and ends at these bytes.
fn count(section: Section, from: u32, to: u32) -> Option<usize> {
    (to.checked_sub(from)? / section.element()).try_into().ok()
}

/// The counts that a good trailer says.
pub fn large(file: &[u8]) -> Option<Cause> {
    let [points, quads, labels, trailer] = starts(file, length(file)?)?;
    Some(Cause::Large(Counts {
        points: count(Section::Points, points, quads)?,
        quads: count(Section::Quads, quads, labels)?,
        labels: count(Section::Labels, labels, trailer)?,
    }))
}

/// The squared sum that a good trailer says, and that of the sheet in front of it.
pub fn sum(file: &[u8]) -> Option<Cause> {
    let [points, quads, labels, _] = starts(file, SUMMED)?;
    let [sum @ .., _, _, _, _] = last::<12>(file)?;
    let corners = file.get(quads as usize..labels as usize)?.as_chunks().0;
    let sheet = squared_sum(count(Section::Points, points, quads)?, corners);
    Some(Cause::Sum { written: u64::from_le_bytes(*sum), sheet })
}

/// The squared sum of so many points, of corners as a file has them. A corner that names no point counts nowhere.
fn squared_sum(points: usize, corners: &[[u8; 4]]) -> u64 {
    let mut quads_at = vec![0_i64; points];
    for corner in corners {
        if let Some(quads) = quads_at.get_mut(u32::from_le_bytes(*corner) as usize) {
            *quads += 1;
        }
    }
    quads_at.into_iter().map(|quads| (quads - 4).pow(2) as u64).sum()
}
