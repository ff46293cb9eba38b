//! Records of a call and its answer, as docs/ORACLE.md lays them out: little-endian words of 8 bytes, no text.
use crate::call::{Answer, Call, DIGEST, sheet_words};
use crate::field::{BandNumbers, Field};
use crate::operation::Operation;
use crate::quads::QuadMesh;

/// The first word of a file: "QSV1".
pub const MAGIC: u32 = 0x3156_5351;
/// The version of the layout.
pub const VERSION: u32 = 1;
/// The words of a record before the lent sheet.
pub const HEAD: usize = 26;
/// A result of more words than this is kept as a digest.
pub const FULL: usize = 512;

/// A call and its answer.
#[derive(Clone, Debug)]
pub struct Record {
    /// The call.
    pub call: Call,
    /// What was answered.
    pub answer: Answer,
}

/// Two wrapping sums over the words: a += word, b += a.
pub fn digest(words: &[u64]) -> [u64; 2] {
    words.iter().fold([0, 0], |[a, b], &word| {
        let a: u64 = a.wrapping_add(word);
        [a, b.wrapping_add(a)]
    })
}

/// The answer with its result as a digest if that is long.
pub fn shortened(answer: Answer) -> Answer {
    if answer.words.len() <= FULL {
        return answer;
    }
    let words = digest(&answer.words).to_vec();
    Answer { flags: answer.flags | DIGEST, words, ..answer }
}

/// Two halves as one word.
fn pair(low: u32, high: u32) -> u64 {
    u64::from(low) | u64::from(high) << 32
}

/// The record as words.
pub fn encode(record: &Record) -> Vec<u64> {
    let Record { call, answer } = record;
    let lent = sheet_words(&call.sheet, f64::to_bits);
    let bytes = 8 * (HEAD + lent.len() + answer.words.len());
    let tags = [call.operation.number(), answer.number, answer.flags, call.band.field.kind()];
    let [points, quads, labels] = answer.counts;
    let sheet = &call.sheet;
    let mut words = vec![pair(bytes as u32, u32::from_le_bytes(tags)), call.argument, answer.count];
    words.push(pair(sheet.points.len() as u32, sheet.quads.len() as u32));
    words.push(pair(sheet.labels.len() as u32, 0));
    words.extend([pair(points, quads), pair(labels, 0), 0]);
    words.extend(call.band.field.numbers().map(f64::to_bits));
    words.extend(call.band.bounds.iter().flatten().map(|x| x.to_bits()));
    words.extend(call.band.levels.map(f64::to_bits));
    words.extend(lent);
    words.extend(&answer.words);
    words
}

/// The low and the high half of a word.
fn halves(word: u64) -> [usize; 2] {
    [(word & 0xffff_ffff) as usize, (word >> 32) as usize]
}

/// The words of a sheet's points, quads and labels.
fn lengths(points: usize, quads: usize, labels: usize) -> [usize; 3] {
    [3 * points, 2 * quads, labels.div_ceil(8)]
}

/// The sheet that stands at the start of the words, and what follows it.
fn sheet_of(words: &[u64], points: usize, quads: usize, labels: usize) -> Option<(QuadMesh, &[u64])> {
    let [p, q, l] = lengths(points, quads, labels);
    let (coordinates, words) = words.split_at_checked(p)?;
    let (corners, words) = words.split_at_checked(q)?;
    let (bytes, rest) = words.split_at_checked(l)?;
    let floats: Vec<f64> = coordinates.iter().map(|&word| f64::from_bits(word)).collect();
    let sheet = QuadMesh {
        points: floats.chunks_exact(3).map(|c| [c[0], c[1], c[2]]).collect(),
        quads: corners
            .chunks_exact(2)
            .map(|pair| {
                let ([a, b], [c, d]) = (halves(pair[0]), halves(pair[1]));
                [a, b, c, d]
            })
            .collect(),
        labels: bytes.iter().flat_map(|word| word.to_le_bytes()).take(labels).collect(),
    };
    Some((sheet, rest))
}

/// The sheet that an accepted answer holds as its words; none where it holds something else.
pub fn sheet_in(answer: &Answer) -> Option<QuadMesh> {
    let [points, quads, labels] = answer.counts.map(|n| n as usize);
    let (sheet, rest) = sheet_of(&answer.words, points, quads, labels)?;
    (answer.number == 0 && rest.is_empty()).then_some(sheet)
}

/// The record of these words, or none if they are not one.
pub fn decode(words: &[u64]) -> Option<Record> {
    let (head, body) = words.split_at_checked(HEAD)?;
    let [bytes, tags] = halves(head[0]);
    if bytes != 8 * words.len() {
        return None;
    }
    let [operation, number, flags, kind] = (tags as u32).to_le_bytes();
    let floats: Vec<f64> = head[8..].iter().map(|&word| f64::from_bits(word)).collect();
    let numbers = std::array::from_fn(|i| floats[i]);
    let bounds = std::array::from_fn(|side| std::array::from_fn(|axis| floats[10 + 3 * side + axis]));
    let band = BandNumbers { field: Field::of(kind, numbers)?, bounds, levels: [floats[16], floats[17]] };
    let [points, quads] = halves(head[3]);
    let (sheet, result) = sheet_of(body, points, quads, halves(head[4])[0])?;
    let [made_points, made_quads] = halves(head[5]);
    let counts = [made_points, made_quads, halves(head[6])[0]].map(|n| n as u32);
    let call = Call { operation: Operation::try_from(operation).ok()?, argument: head[1], band, sheet };
    let answer = Answer { number, flags, count: head[2], counts, words: result.to_vec() };
    Some(Record { call, answer })
}

/// A file of records as bytes.
pub fn file(records: &[Record]) -> Vec<u8> {
    let body: Vec<u64> = records.iter().flat_map(encode).collect();
    let head = [pair(MAGIC, VERSION), pair(records.len() as u32, 16 + 8 * body.len() as u32)];
    head.iter().chain(&body).flat_map(|word| word.to_le_bytes()).collect()
}

/// The records of a file, or what is wrong with it.
pub fn read(bytes: &[u8]) -> Result<Vec<Record>, String> {
    let (words, tail) = bytes.as_chunks::<8>();
    let words: Vec<u64> = words.iter().map(|word| u64::from_le_bytes(*word)).collect();
    let [first, second, body @ ..] = words.as_slice() else {
        return Err("the file has no head".into());
    };
    let [count, length] = halves(*second);
    if *first != pair(MAGIC, VERSION) || !tail.is_empty() || length != bytes.len() {
        return Err("the file's head does not fit it".into());
    }
    let mut records = Vec::new();
    let mut rest = body;
    while let Some(&word) = rest.first() {
        let size = halves(word)[0] / 8;
        let record = rest.get(..size).and_then(decode);
        records.push(record.ok_or_else(|| format!("record {} is cut or damaged", records.len()))?);
        rest = &rest[size..];
    }
    if records.len() == count { Ok(records) } else { Err("the file's count of records is off".into()) }
}

#[cfg(test)]
mod tests {
    use super::*;
    use crate::call::expected;
    use crate::inputs;
    use crate::random::Random;

    /// A few records of every operation.
    fn records() -> Vec<Record> {
        let mut r = Random::new(9);
        let calls = Operation::all().flat_map(|operation| [operation; 40]);
        let calls: Vec<Call> = calls.map(|operation| inputs::call(&mut r, operation)).collect();
        calls.into_iter().map(|call| Record { answer: shortened(expected(&call)), call }).collect()
    }

    #[test]
    fn a_record_comes_back_as_it_went() {
        for record in records() {
            let words = encode(&record);
            let again = decode(&words).unwrap();
            assert_eq!(again.call.operation, record.call.operation);
            assert_eq!(again.answer, record.answer);
            assert_eq!(encode(&again), words);
        }
    }

    #[test]
    fn a_file_comes_back_as_it_went() {
        let records = records();
        let bytes = file(&records);
        assert_eq!(file(&read(&bytes).unwrap()), bytes);
    }

    #[test]
    fn a_damaged_file_is_refused() {
        let bytes = file(&records());
        assert!(read(&bytes[..bytes.len() - 8]).is_err());
        assert!(read(&bytes[..3]).is_err());
        assert!(read(&[&bytes[..], &[0; 8]].concat()).is_err());
    }

    #[test]
    fn an_answer_gives_its_sheet_back() {
        use crate::{bands, job, sheets};
        let on = |operation, sheet| Call { operation, argument: 1, band: bands::UNIT, sheet };
        let finer = expected(&on(Operation::Refine, sheets::cube()));
        assert_eq!(Answer::sheet(0, &sheet_in(&finer).unwrap()), finer);
        assert!(sheet_in(&expected(&on(Operation::Quality, sheets::cube()))).is_none());
        assert!(sheet_in(&expected(&on(Operation::Corners, sheets::cube()))).is_none());
        assert!(sheet_in(&expected(&on(Operation::Page, sheets::cube()))).is_none());
        let save = Call { argument: 386, ..on(Operation::Save, sheets::cube()) };
        let file = job::write(&job::of(&save));
        assert!(sheet_in(&expected(&save)).is_none() && sheet_in(&expected(&job::open(file.clone(), 8))).is_none());
        assert!(sheet_in(&expected(&job::sum(file))).is_none());
        assert!(sheet_in(&expected(&on(Operation::Subdivide, sheets::empty()))).is_none());
    }

    #[test]
    fn a_long_result_becomes_a_digest() {
        let answer = Answer { words: (0..600).collect(), ..Answer::default() };
        let short = shortened(answer);
        assert_eq!(short.flags, DIGEST);
        assert_eq!(short.words, [179_700, 35_999_900]);
    }
}
