//! Job files, which the original does not have: a writer by `to_le_bytes` and a reader by `chunks_exact`, which share
//! nothing with the library and its Rust crate. A trailer is good if it is the one that the writer would write of the
//! counts that it tells and of the sum that stands in it, or, without a sum, the one that was written before.
use crate::Point;
use crate::call::{Answer, Call};
use crate::field::{BandNumbers, Field};
use crate::operation::Operation;
use crate::quads::QuadMesh;

/// The most points, quads or labels of a sheet.
pub const MOST: usize = 1_048_576;

/// How many points, quads and labels the replay has room for.
const REPLAYED: usize = 64;

/// The refusals: a sheet above the limit, a slice that is too short, a trailer that is not good, a sum that is not the
/// sheet's.
const LARGE: u8 = 12;
const SHORT: u8 = 13;
const TRAILER: u8 = 14;
const SUM: u8 = 17;

/// A band of which nothing is used.
pub const NO_BAND: BandNumbers = BandNumbers { field: Field::Plane([0.0; 4]), bounds: [[0.0; 3]; 2], levels: [0.0; 2] };

/// What a job file holds: low x, y, z, high x, y, z, lower and upper level, and a sheet.
#[derive(Clone, Debug)]
pub struct Job {
    /// The eight numbers.
    pub header: [f64; 8],
    /// The sheet.
    pub sheet: QuadMesh,
}

/// The elements of the slices into which a file is opened.
#[derive(Clone, Copy, Debug)]
pub struct Room {
    /// Those of the header.
    pub header: usize,
    /// Those of the points, three a point.
    pub points: usize,
    /// Those of the quads, four a quad.
    pub quads: usize,
    /// Those of the labels.
    pub labels: usize,
    /// Those of the work, one a point.
    pub work: usize,
}

impl Room {
    /// Room for a header, and for so many points, quads and labels; 0 stands for the room of the replay.
    pub fn of(argument: u64) -> Room {
        let n = if argument == 0 { REPLAYED } else { argument as usize };
        Room { header: 8, points: 3 * n, quads: 4 * n, labels: n, work: n }
    }

    /// Whether it holds the header and a sheet of these counts, with its work.
    fn holds(self, [points, quads, labels]: [usize; 3]) -> bool {
        let sheet = self.points >= 3 * points && self.quads >= 4 * quads && self.labels >= labels;
        sheet && self.header >= 8 && self.work >= points
    }
}

/// How many points, quads and labels a sheet has.
pub fn counts(sheet: &QuadMesh) -> [usize; 3] {
    [sheet.points.len(), sheet.quads.len(), sheet.labels.len()]
}

/// Whether one of these counts is above the limit.
fn is_large(counts: [usize; 3]) -> bool {
    counts.iter().any(|&n| n > MOST)
}

/// The starts of points, quads, labels and trailer in the file of a sheet of these counts.
fn starts([points, quads, labels]: [usize; 3]) -> [usize; 4] {
    let at_quads = 64 + 24 * points;
    let at_labels = at_quads + 16 * quads;
    [64, at_quads, at_labels, at_labels + labels]
}

/// The trailer of a sheet of these counts, with a sum or as it was before there was one.
fn trailer(counts: [usize; 3], sum: Option<u64>) -> Vec<u8> {
    let mut trailer: Vec<u8> = starts(counts).iter().flat_map(|&n| (n as u32).to_le_bytes()).collect();
    trailer.extend(sum.map(u64::to_le_bytes).iter().flatten());
    trailer.extend((trailer.len() as u32 + 4).to_le_bytes());
    trailer
}

/// The bytes of the file with a sheet of these counts.
pub fn bytes(counts: [usize; 3]) -> usize {
    starts(counts)[3] + 28
}

/// The sum over the points of (corners that name the point minus 4) squared. A corner out of range names none.
pub fn squared_sum(sheet: &QuadMesh) -> u64 {
    let mut named = vec![0u64; sheet.points.len()];
    let corners = sheet.quads.iter().flatten().filter(|&&corner| corner < sheet.points.len());
    corners.for_each(|&corner| named[corner] += 1);
    named.iter().map(|corners| corners.abs_diff(4).pow(2)).sum()
}

/// The file of a job.
pub fn write(job: &Job) -> Vec<u8> {
    file_of(&job.header, &job.sheet)
}

/// The file of a job as it was before there was a sum in it.
pub fn write_old(job: &Job) -> Vec<u8> {
    [body(&job.header, &job.sheet), trailer(counts(&job.sheet), None)].concat()
}

/// The file of a header and a sheet.
pub fn file_of(header: &[f64; 8], sheet: &QuadMesh) -> Vec<u8> {
    let mut file = body(header, sheet);
    file.extend(trailer(counts(sheet), Some(squared_sum(sheet))));
    file
}

/// What stands in front of the trailer.
fn body(header: &[f64; 8], sheet: &QuadMesh) -> Vec<u8> {
    let mut file = Vec::with_capacity(bytes(counts(sheet)));
    let floats = header.iter().chain(sheet.points.iter().flatten());
    floats.for_each(|x| file.extend(x.to_bits().to_le_bytes()));
    sheet.quads.iter().flatten().for_each(|&corner| file.extend((corner as u32).to_le_bytes()));
    file.extend(&sheet.labels);
    file
}

/// The words of so many bytes each, as numbers.
fn numbers(bytes: &[u8], size: usize) -> impl Iterator<Item = u64> {
    bytes.chunks_exact(size).map(move |word| {
        let mut eight = [0; 8];
        eight[..size].copy_from_slice(word);
        u64::from_le_bytes(eight)
    })
}

/// The counts that the trailer of a file says from a byte on, and the sum if one is to be there; none where it is not
/// good.
fn told_from(file: &[u8], at: usize, summed: bool) -> Option<([usize; 3], Option<u64>)> {
    let found: Vec<usize> = numbers(&file[at..at + 16], 4).map(|n| n as usize).collect();
    let part = |place: usize, size: usize| Some(found[place + 1].checked_sub(found[place])? / size);
    let counts = [part(0, 24)?, part(1, 16)?, part(2, 1)?];
    let sum = if summed { numbers(&file[at + 16..], 8).next() } else { None };
    (file[at..] == trailer(counts, sum) && starts(counts)[3] == at).then_some((counts, sum))
}

/// The counts and the sum, if there is one, that a good trailer says; none where it is not good.
fn told(file: &[u8]) -> Option<([usize; 3], Option<u64>)> {
    let from = |length: usize, summed| told_from(file, file.len().checked_sub(length)?, summed);
    from(20, false).or_else(|| from(28, true))
}

/// Whether the sum that a good file says is that of a sheet; one that says none tells nothing false.
pub fn tells_true(file: &[u8], sheet: &QuadMesh) -> bool {
    told(file).and_then(|(_, sum)| sum).is_none_or(|sum| sum == squared_sum(sheet))
}

/// The job of a file, or the number with which it is refused whatever room there is and whatever its sum is.
pub fn read(file: &[u8]) -> Result<Job, u8> {
    let (counts, _) = told(file).ok_or(TRAILER)?;
    if is_large(counts) {
        return Err(LARGE);
    }
    let [_, quads, labels, end] = starts(counts);
    let floats: Vec<f64> = numbers(&file[..quads], 8).map(f64::from_bits).collect();
    let corners: Vec<usize> = numbers(&file[quads..labels], 4).map(|corner| corner as usize).collect();
    let point = |c: &[f64]| -> Point { [c[0], c[1], c[2]] };
    let sheet = QuadMesh {
        points: floats[8..].chunks_exact(3).map(point).collect(),
        quads: corners.chunks_exact(4).map(|q| [q[0], q[1], q[2], q[3]]).collect(),
        labels: file[labels..end].to_vec(),
    };
    Ok(Job { header: std::array::from_fn(|i| floats[i]), sheet })
}

/// The header of a band's box and levels.
pub fn header(band: &BandNumbers) -> [f64; 8] {
    let ([[x, y, z], [high_x, high_y, high_z]], [lower, upper]) = (band.bounds, band.levels);
    [x, y, z, high_x, high_y, high_z, lower, upper]
}

/// The job of a call that saves.
pub fn of(call: &Call) -> Job {
    Job { header: header(&call.band), sheet: call.sheet.clone() }
}

/// The call that saves a job into so many bytes.
pub fn save(Job { header, sheet }: Job, lent: usize) -> Call {
    let [x, y, z, high_x, high_y, high_z, lower, upper] = header;
    let bounds = [[x, y, z], [high_x, high_y, high_z]];
    let band = BandNumbers { bounds, levels: [lower, upper], ..NO_BAND };
    Call { operation: Operation::Save, argument: lent as u64, band, sheet }
}

/// The call that opens a file into this room: the file stands where the labels of a sheet would.
pub fn open(file: Vec<u8>, room: u64) -> Call {
    let sheet = QuadMesh { points: vec![], quads: vec![], labels: file };
    Call { operation: Operation::Open, argument: room, band: NO_BAND, sheet }
}

/// The call that reads the sum of a file, which stands where the labels of a sheet would.
pub fn sum(file: Vec<u8>) -> Call {
    Call { operation: Operation::Sum, ..open(file, 0) }
}

/// What is expected of a call that saves, its slices as long as they must be: the file, which needs so many bytes.
pub fn saved(call: &Call) -> Answer {
    let counts = counts(&call.sheet);
    if is_large(counts) {
        return Answer::refused(LARGE);
    }
    if bytes(counts) as u64 > call.argument {
        return Answer::refused(SHORT);
    }
    Answer::file(&file_of(&header(&call.band), &call.sheet), counts)
}

/// What is expected of a call that opens a file into this room.
pub fn opened(file: &[u8], room: Room) -> Answer {
    match read(file) {
        Err(number) => Answer::refused(number),
        Ok(job) if !room.holds(counts(&job.sheet)) => Answer::refused(SHORT),
        Ok(job) if !tells_true(file, &job.sheet) => Answer::refused(SUM),
        Ok(job) => Answer::job(&job),
    }
}

/// What is expected of a call that reads the sum of a file, its answer slice as long as it must be.
pub fn summed(file: &[u8]) -> Answer {
    told(file).map_or(Answer::refused(TRAILER), |(_, sum)| Answer::sum(sum))
}

#[cfg(test)]
mod tests {
    use super::*;
    use crate::call::expected;
    use crate::random::Random;
    use crate::{inputs, sheets};

    /// The cube in the unit box, between the levels -1 and 2.
    fn cube() -> Job {
        Job { header: [0.0, 0.0, 0.0, 1.0, 1.0, 1.0, -1.0, 2.0], sheet: sheets::cube() }
    }

    /// The bytes of an answer that is a file.
    fn file_in(answer: &Answer) -> Vec<u8> {
        let mut bytes: Vec<u8> = answer.words.iter().flat_map(|word| word.to_le_bytes()).collect();
        assert!(bytes.split_off(answer.count as usize).iter().all(|&byte| byte == 0));
        bytes
    }

    #[test]
    fn the_cube_has_its_386_bytes_and_had_378() {
        let (file, old) = (write(&cube()), write_old(&cube()));
        assert_eq!(file, include_bytes!("../../../rust/quads/tests/cube-sum.job"));
        assert_eq!(old, include_bytes!("../../../rust/quads/tests/cube.job"));
        assert_eq!(old[358..], [64, 0, 0, 0, 0, 1, 0, 0, 96, 1, 0, 0, 102, 1, 0, 0, 20, 0, 0, 0]);
        assert_eq!(file[374..], [8, 0, 0, 0, 0, 0, 0, 0, 28, 0, 0, 0]);
        let answer = expected(&save(cube(), 386));
        assert_eq!((answer.count, answer.counts, file_in(&answer)), (386, [8, 6, 6], file));
    }

    #[test]
    fn nothing_has_92_bytes_and_had_84() {
        let nothing = Job { header: [0.0; 8], sheet: sheets::empty() };
        let (file, old) = (write(&nothing), write_old(&nothing));
        assert_eq!(old[64..], [64, 0, 0, 0, 64, 0, 0, 0, 64, 0, 0, 0, 64, 0, 0, 0, 20, 0, 0, 0]);
        assert_eq!((file.len(), &file[80..]), (92, &[0, 0, 0, 0, 0, 0, 0, 0, 28, 0, 0, 0][..]));
        for file in [file, old] {
            assert_eq!(expected(&open(file, 0)), Answer { words: vec![0; 8], ..Answer::default() });
        }
    }

    #[test]
    fn sums_are_those_that_are_worked_out_by_hand() {
        let sum = |points: usize, quads: Vec<[usize; 4]>| {
            squared_sum(&QuadMesh { points: vec![[0.5; 3]; points], quads, labels: vec![] })
        };
        assert_eq!((squared_sum(&sheets::cube()), squared_sum(&sheets::pillow())), (8, 16));
        assert_eq!([sum(1, vec![[0; 4]; 2]), sum(1, vec![[0; 4]]), sum(3, vec![])], [16, 0, 48]);
        assert_eq!([sum(5, vec![[5, 6, 7, u32::MAX as usize]; 3]), sum(0, vec![[0; 4]; 9])], [80, 0]);
        assert_eq!(sum(2, vec![[0, 0, 0, 2]]), 1 + 16);
    }

    #[test]
    fn large_short_and_trailer_have_their_order() {
        let number = |call: Call| expected(&call).number;
        assert_eq!([385, 386, 400].map(|lent| number(save(cube(), lent))), [SHORT, 0, 0]);
        let many = |labels| Job { sheet: QuadMesh { labels: vec![1; labels], ..sheets::empty() }, ..cube() };
        assert_eq!([MOST, MOST + 1].map(|n| number(save(many(n), 0))), [SHORT, LARGE]);
        for write in [write, write_old] {
            assert_eq!([MOST, MOST + 1].map(|n| number(open(write(&many(n)), 1))), [SHORT, LARGE]);
            assert_eq!(number(open(write(&many(MOST)), MOST as u64)), 0);
            assert_eq!(number(open([write(&many(MOST + 1)), vec![0]].concat(), 1)), TRAILER);
            let file = write(&cube());
            assert!((0..file.len()).all(|bytes| number(open(file[..bytes].to_vec(), 0)) == TRAILER));
            assert!((0..file.len()).all(|bytes| number(sum(file[..bytes].to_vec())) == TRAILER));
            assert_eq!([7, 8, 0].map(|room| number(open(file.clone(), room))), [SHORT, 0, 0]);
        }
    }

    #[test]
    fn a_sum_is_read_as_it_is_written_and_compared_behind_all_else() {
        let answered = |file: &[u8], room| expected(&open(file.to_vec(), room)).number;
        let mut file = write(&cube());
        assert_eq!((summed(&file), summed(&write_old(&cube()))), (Answer::sum(Some(8)), Answer::sum(None)));
        for byte in 374..382 {
            file[byte] ^= 128;
            assert_eq!([7, 8, 0].map(|room| answered(&file, room)), [SHORT, SUM, SUM]);
            assert_ne!(summed(&file), Answer::sum(Some(8)));
            file[byte] ^= 128;
        }
        file[382] = 24;
        assert_eq!((answered(&file, 1), summed(&file)), (TRAILER, Answer::refused(TRAILER)));
    }

    #[test]
    fn a_short_work_is_one_of_the_short() {
        let room = |work| Room { work, ..Room::of(0) };
        for file in [write(&cube()), write_old(&cube())] {
            assert_eq!([7, 8, 13].map(|work| opened(&file, room(work)).number), [SHORT, 0, 0]);
        }
    }

    #[test]
    fn the_room_of_the_replay_is_64_of_each() {
        let Room { header, points, quads, labels, work } = Room::of(0);
        assert_eq!([header, points, quads, labels, work], [8, 192, 256, 64, 64]);
    }

    #[test]
    fn a_file_that_opens_is_written_again_byte_for_byte() {
        let mut r = Random::new(6);
        let [mut opened, mut old] = [0; 2];
        for _ in 0..4000 {
            let file = inputs::call(&mut r, Operation::Open).sheet.labels;
            let Some(job) = read(&file).ok().filter(|job| tells_true(&file, &job.sheet)) else { continue };
            let is_old = file == write_old(&job);
            assert!(is_old || file == write(&job));
            opened += 1;
            old += usize::from(is_old);
        }
        assert!((1000..3000).contains(&opened) && (300..1500).contains(&old), "{opened}, {old}");
    }

    #[test]
    fn what_is_saved_opens_to_the_same_words() {
        let mut r = Random::new(7);
        for _ in 0..2000 {
            let call = inputs::call(&mut r, Operation::Save);
            let job = of(&call);
            let call = Call { argument: bytes(counts(&job.sheet)) as u64, ..call };
            let again = expected(&open(file_in(&expected(&call)), 1000));
            assert_eq!(again, Answer::job(&job));
        }
    }
}
