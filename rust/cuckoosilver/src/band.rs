//! The band as options give it, part by part.
use crate::problem::Problem;
use crate::words::Words;
use quads::{Band, Field, Job, Sheet};

/// A part of a band.
#[derive(Clone, Copy, Debug, PartialEq)]
pub enum Part {
    /// --plane, --ball or --quadric.
    Field(Field),
    /// --box.
    Box([f64; 6]),
    /// --levels.
    Levels([f64; 2]),
}

impl Part {
    /// The part of a word, with its operands; none for a word that is no part of a band.
    pub fn parse(word: &str, words: &mut Words) -> Result<Option<Part>, Problem> {
        let part = match word {
            "--plane" => words.floats(word).map(|[a, b, c, d]| Part::Field(Field::Plane { a, b, c, d }))?,
            "--ball" => words.floats(word).map(|[cx, cy, cz, r]| Part::Field(Field::Ball { cx, cy, cz, r }))?,
            "--quadric" => Part::Field(Field::Quadric(words.floats(word)?)),
            "--box" => Part::Box(words.floats(word)?),
            "--levels" => Part::Levels(words.floats(word)?),
            _ => return Ok(None),
        };
        Ok(Some(part))
    }
}

/// The parts of a band that have been given.
#[derive(Clone, Copy, Debug, Default, PartialEq)]
pub struct Parts {
    field: Option<Field>,
    bounds: Option<[f64; 6]>,
    levels: Option<[f64; 2]>,
}

impl Parts {
    /// Takes a part, in place of the one before.
    pub fn take(&mut self, part: Part) {
        match part {
            Part::Field(field) => self.field = Some(field),
            Part::Box(bounds) => self.bounds = Some(bounds),
            Part::Levels(levels) => self.levels = Some(levels),
        }
    }

    /// The parts that a job has: all but the field.
    pub fn of(job: &Job) -> Parts {
        let ([x, y, z], [high_x, high_y, high_z]) = (job.low, job.high);
        Parts { field: None, bounds: Some([x, y, z, high_x, high_y, high_z]), levels: Some([job.lower, job.upper]) }
    }

    /// The options of the box and the levels that are given and are not those of another.
    pub fn against(&self, other: Parts) -> Vec<&'static str> {
        let parts = [
            (self.bounds.is_some() && self.bounds != other.bounds, "--box"),
            (self.levels.is_some() && self.levels != other.levels, "--levels"),
        ];
        chosen(&parts)
    }

    /// The parts with those of another where there are none.
    pub fn or(self, other: Parts) -> Parts {
        Parts {
            field: self.field.or(other.field),
            bounds: self.bounds.or(other.bounds),
            levels: self.levels.or(other.levels),
        }
    }

    /// The band, if it is whole; else an error that tells all the parts that are missing.
    pub fn band(&self) -> Result<Band, Problem> {
        let (Some(field), Some(bounds), Some([lower, upper])) = (self.field, self.bounds, self.levels) else {
            let field = (self.field.is_none(), "--plane, --ball or --quadric");
            let missing = [chosen(&[field]), self.missing()].concat().join(", and ");
            return Err(Problem::Usage(format!("the band is not whole: give {missing}")));
        };
        let (low, high) = corners(bounds);
        Ok(Band { field, low, high, lower, upper })
    }

    /// The job of a sheet in the box, between the levels, if both are there; else an error that tells what is missing.
    pub fn job(&self, sheet: Sheet) -> Result<Job, Problem> {
        let (Some(bounds), Some([lower, upper])) = (self.bounds, self.levels) else {
            let missing = self.missing().join(", and ");
            return Err(Problem::Usage(format!("a job file has a box and two levels: give {missing}")));
        };
        let (low, high) = corners(bounds);
        Ok(Job { low, high, lower, upper, sheet })
    }

    /// The options of the box and the levels, where these are missing.
    fn missing(&self) -> Vec<&'static str> {
        chosen(&[(self.bounds.is_none(), "--box"), (self.levels.is_none(), "--levels")])
    }

    /// The options that give these parts.
    pub fn options(&self) -> Vec<String> {
        let mut words = vec![];
        let mut option = |name: &str, numbers: &[f64]| {
            words.push(name.to_string());
            words.extend(numbers.iter().map(|number| format!("{number:?}")));
        };
        match self.field {
            Some(Field::Plane { a, b, c, d }) => option("--plane", &[a, b, c, d]),
            Some(Field::Ball { cx, cy, cz, r }) => option("--ball", &[cx, cy, cz, r]),
            Some(Field::Quadric(k)) => option("--quadric", &k),
            None => {}
        }
        if let Some(bounds) = self.bounds {
            option("--box", &bounds);
        }
        if let Some(levels) = self.levels {
            option("--levels", &levels);
        }
        words
    }

    /// The parts that options give; what is no part of a band is an error.
    pub fn parse(list: &[String]) -> Result<Parts, Problem> {
        let (mut words, mut parts) = (Words::new(list), Parts::default());
        while let Some(word) = words.next() {
            let part = Part::parse(word, &mut words)?;
            parts.take(part.ok_or_else(|| Problem::Usage(format!("{word} is no part of a band")))?);
        }
        Ok(parts)
    }
}

/// The options of which something is so.
fn chosen(options: &[(bool, &'static str)]) -> Vec<&'static str> {
    options.iter().filter(|(is_so, _)| *is_so).map(|&(_, option)| option).collect()
}

/// The low and the high corner of a box.
fn corners([x, y, z, high_x, high_y, high_z]: [f64; 6]) -> ([f64; 3], [f64; 3]) {
    ([x, y, z], [high_x, high_y, high_z])
}

#[cfg(test)]
mod tests {
    use super::*;

    fn parse(text: &str) -> Result<Parts, Problem> {
        Parts::parse(&text.split_whitespace().map(String::from).collect::<Vec<_>>())
    }

    #[test]
    fn options_give_the_band_and_the_band_its_options() {
        let parts = parse("--ball 0 0.5 1e-9 2 --levels -1 1 --box 1 2 3 4 5 6").unwrap();
        let band = parts.band().unwrap();
        assert_eq!((band.low, band.high, band.lower, band.upper), ([1.0, 2.0, 3.0], [4.0, 5.0, 6.0], -1.0, 1.0));
        assert_eq!(Parts::parse(&parts.options()), Ok(parts));
    }

    #[test]
    fn missing_parts_are_told_at_once() {
        let nothing = "the band is not whole: give --plane, --ball or --quadric, and --box, and --levels";
        assert_eq!(Parts::default().band(), Err(Problem::Usage(nothing.into())));
        let parts = parse("--plane 0 0 1 0 --levels 0 1").unwrap();
        assert_eq!(parts.band(), Err(Problem::Usage("the band is not whole: give --box".into())));
        assert!(parts.or(parse("--box 0 0 0 1 1 1 --levels 5 6").unwrap()).band().is_ok_and(|band| band.upper == 1.0));
    }

    #[test]
    fn a_job_needs_no_field() {
        let job = |text: &str| parse(text).unwrap().job(Sheet::default());
        let whole = job("--levels 7 nan --box 1 2 3 4 5 6").unwrap();
        assert_eq!((whole.low, whole.high, whole.lower), ([1.0, 2.0, 3.0], [4.0, 5.0, 6.0], 7.0));
        let usage = |options: &str| Err(Problem::Usage(format!("a job file has a box and two levels: give {options}")));
        assert_eq!(job("--ball 0 0 0 0"), usage("--box, and --levels"));
        assert_eq!(job("--ball 0 0 0 0 --box 1 2 3 4 5 6"), usage("--levels"));
    }

    #[test]
    fn a_job_has_all_but_the_field() {
        let parts = parse("--levels 7 8 --box 1 2 3 4 5 6").unwrap();
        assert_eq!(Parts::of(&parts.job(Sheet::default()).unwrap()), parts);
        let against = |text: &str| parse(text).unwrap().against(parts);
        assert_eq!(against("--plane 0 0 1 0 --levels 7 8"), [""; 0]);
        assert_eq!(against("--levels 7 9 --box 1 2 3 4 5 6"), ["--levels"]);
        assert_eq!(against("--levels 6 8 --box 1 2 3 4 5 7"), ["--box", "--levels"]);
    }

    #[test]
    fn a_step_is_no_part_of_a_band() {
        for wrong in ["draw 8", "--levels 0 1 --quiet", "--levels 0"] {
            assert!(parse(wrong).is_err(), "{wrong}");
        }
    }
}
