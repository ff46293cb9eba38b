//! The steps and options of a command line.
use crate::display::Report;
use crate::operation::Operation;
use crate::place::Place;
use crate::problem::Problem;
use crate::setting::Setting;
use crate::spelling;
use crate::words::Words;

/// A step or an option, as it was written and what it means.
#[derive(Clone, Debug, PartialEq)]
pub struct Step {
    /// Its words.
    pub text: String,
    /// What it does.
    pub action: Action,
}

impl Step {
    /// Whether it takes the sheet, or a job file, from standard input.
    pub fn takes_input(&self) -> bool {
        match &self.action {
            Action::Run(operation) => operation.takes_input(),
            action => *action == Action::Sum(Place::Standard),
        }
    }

    /// Whether it writes the sheet to standard output.
    pub fn fills_output(&self) -> bool {
        matches!(&self.action, Action::Run(operation) if operation.fills_output())
    }
}

/// What a step or an option does.
#[derive(Clone, Debug, PartialEq)]
pub enum Action {
    /// Sets something for the steps after it.
    Set(Setting),
    /// Prints something of the sheet.
    Print(Report),
    /// Prints the sum of a job file, without its sheet.
    Sum(Place),
    /// Works on the sheet, or on a file.
    Run(Operation),
}

impl Action {
    /// Whether it has to do with the sheet: it is neither an option nor the sum of a file.
    pub fn is_of_the_sheet(&self) -> bool {
        matches!(self, Action::Print(_) | Action::Run(_))
    }

    /// The action of a word, with its operands.
    fn parse(word: &str, words: &mut Words) -> Result<Action, Problem> {
        if let Some(setting) = Setting::parse(word, words)? {
            return Ok(Action::Set(setting));
        }
        if let Some(report) = Report::parse(word) {
            return Ok(Action::Print(report));
        }
        if word == "sum" {
            return Place::to_open(word, words).map(Action::Sum);
        }
        let operation = Operation::parse(word, words)?;
        operation.map(Action::Run).ok_or_else(|| unknown(word))
    }
}

/// The problem of a word that is not known, with the word that may have been meant.
fn unknown(word: &str) -> Problem {
    let meant = spelling::nearest(word).map(|known| format!("; did you mean {known}?")).unwrap_or_default();
    Problem::Usage(format!("{word} is no step and no option{meant}"))
}

/// The steps and options of a list of words.
pub fn parse(list: &[String]) -> Result<Vec<Step>, Problem> {
    let (mut words, mut steps) = (Words::new(list), vec![]);
    let mut start = 0;
    while let Some(word) = words.next() {
        let action = Action::parse(word, &mut words)?;
        let end = list.len() - words.left();
        steps.push(Step { text: list[start..end].join(" "), action });
        start = end;
    }
    Ok(steps)
}

#[cfg(test)]
mod tests {
    use super::*;
    use crate::band::Part;
    use quads::Field;

    /// The actions of a text.
    fn actions(text: &str) -> Result<Vec<Action>, Problem> {
        let words: Vec<String> = text.split_whitespace().map(String::from).collect();
        Ok(parse(&words)?.into_iter().map(|step| step.action).collect())
    }

    #[test]
    fn steps_keep_their_order_and_their_words() {
        let words = ["--levels", "1", "2", "draw", "8", "regularize", "coarsen", "3"].map(String::from);
        let steps = parse(&words).unwrap();
        let texts: Vec<&str> = steps.iter().map(|step| step.text.as_str()).collect();
        assert_eq!(texts, ["--levels 1 2", "draw 8", "regularize", "coarsen 3"]);
        assert_eq!(steps[2].action, Action::Run(Operation::Regularize(1)));
        assert_eq!(steps[3].action, Action::Run(Operation::Coarsen(3)));
    }

    #[test]
    fn fields_take_their_numbers() {
        let set = |field| Ok(vec![Action::Set(Setting::Band(Part::Field(field)))]);
        let ball = Field::Ball { cx: 1.0, cy: 2.0, cz: 3.0, r: 4.0 };
        assert_eq!(actions("--ball 1 2 3 4"), set(ball));
        let quadric = Field::Quadric([0.0, 1.0, 2.0, 3.0, 4.0, 5.0, 6.0, 7.0, 8.0, 9.0]);
        assert_eq!(actions("--quadric 0 1 2 3 4 5 6 7 8 9"), set(quadric));
    }

    #[test]
    fn reports_are_named_by_their_words() {
        let reports = [Report::Display, Report::Page, Report::Quality, Report::Corners].map(Action::Print);
        assert_eq!(actions("display page quality corners"), Ok(reports.to_vec()));
    }

    #[test]
    fn a_sum_is_that_of_a_file() {
        let sum = |name: &str| Action::Sum(name.into());
        assert_eq!(actions("sum a.job sum - sum a"), Ok(vec![sum("a.job"), sum("-"), sum("a")]));
        assert!(!sum("a.job").is_of_the_sheet() && Action::Print(Report::Page).is_of_the_sheet());
    }

    #[test]
    fn what_is_no_step_is_refused() {
        let lone = ["paint", "draw", "picture", "write", "sum"];
        for wrong in lone.into_iter().chain(["draw x", "--plane 1 2 3", "--size 9", "picture a.gif", "sum a.ply"]) {
            assert!(matches!(actions(wrong), Err(Problem::Usage(_))), "{wrong}");
        }
    }

    #[test]
    fn a_dash_is_standard_input_or_output() {
        let words = ["read", "-", "open", "-", "sum", "-", "open", "a.job", "sum", "a.job"];
        let steps = parse(&words.map(String::from)).unwrap();
        assert_eq!(steps.iter().map(Step::takes_input).collect::<Vec<_>>(), [true, true, true, false, false]);
        assert!(!steps.iter().any(Step::fills_output));
        let steps = parse(&["write", "-", "save", "-", "save", "a.job"].map(String::from)).unwrap();
        assert_eq!(steps.iter().map(Step::fills_output).collect::<Vec<_>>(), [true, true, false]);
        assert!(!steps.iter().any(Step::takes_input));
    }
}
