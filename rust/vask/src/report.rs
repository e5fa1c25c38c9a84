//! What a job answered, as lines for people or as JSON. Assumes nothing.
use crate::json::Json;
use crate::words::{explain, Files};
use vaskunoor::Refusal;

/// The answer of a job.
pub struct Report {
    job: &'static str,
    refused: bool,
    number: u32,
    details: [u32; 4],
    /// The first line: `done` and what was done, or `refused` with the number and the details.
    first: String,
    words: Vec<String>,
    facts: Vec<(&'static str, Json)>,
}

impl Report {
    /// A job that is done, with what was done by name.
    pub fn done(job: &'static str, details: &[u32], facts: &[(&'static str, u32)]) -> Report {
        let mut first = "done".to_string();
        facts.iter().for_each(|(name, number)| first += &format!(" {name} {number}"));
        let mut all = [0; 4];
        all.iter_mut().zip(details).for_each(|(to, from)| *to = *from);
        let facts = facts.iter().map(|&(name, number)| (name, number.into())).collect();
        Report { job, refused: false, number: 0, details: all, first, words: Vec::new(), facts }
    }

    pub fn refused(job: &'static str, refusal: &Refusal, files: Files) -> Report {
        let (number, details) = (refusal.number(), refusal.details());
        let [one, two, three, four] = details;
        let first = format!("refused {number} {one} {two} {three} {four}");
        let explanation = explain(refusal, files);
        Report { job, refused: true, number, details, first, words: explanation.lines, facts: explanation.facts }
    }

    pub fn is_refused(&self) -> bool {
        self.refused
    }

    pub fn text(&self) -> String {
        let lines = std::iter::once(&self.first).chain(&self.words);
        lines.map(|line| format!("{line}\n")).collect()
    }

    pub fn json(&self) -> String {
        let mut fields: Vec<(&'static str, Json)> = vec![
            ("job", self.job.into()),
            ("answer", if self.refused { "refused" } else { "done" }.into()),
            ("number", self.number.into()),
            ("details", Json::from_iter(self.details)),
        ];
        if self.refused {
            fields.push(("words", Json::from_iter(self.words.iter().map(String::as_str))));
            fields.push(("facts", Json::Object(self.facts.clone())));
        } else {
            fields.extend(self.facts.iter().cloned());
        }
        format!("{}\n", Json::Object(fields))
    }
}

/// A failure that is no answer: wrong usage, or a file that cannot be read or written.
pub fn failure_json(message: &str) -> String {
    format!("{}\n", Json::Object(vec![("answer", "failed".into()), ("message", message.into())]))
}
