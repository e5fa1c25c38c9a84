//! The help: of the whole command and of each job. Assumes nothing.

/// A job of the command: its name, the words behind it, and what it is for.
pub struct Entry {
    pub name: &'static str,
    pub words: &'static str,
    pub asks: &'static str,
    more: &'static str,
}

pub const JOBS: [Entry; 6] = [
    Entry {
        name: "read",
        words: "REQUEST",
        asks: "is the request in order?",
        more: "\
Reads the network and the circuits of REQUEST. Where something is wrong with the file, says
which field of which record, its value, and what is allowed.
Prints `done`.",
    },
    Entry {
        name: "allocate",
        words: "REQUEST ASSIGNMENT [BUDGET]",
        asks: "give slots to its circuits, and write them to ASSIGNMENT",
        more: "\
Finds the first choice of offsets, in order, with which no two circuits ever hold one buffer
or one local inport together.
BUDGET is how many choices the search may enter: 1000000 where it is not given, 4294967295
at most. A larger budget never changes an answer other than `unfinished`. Where there is no
room, says which circuits alone have none.
Prints `done visits V bytes B`.",
    },
    Entry {
        name: "check",
        words: "REQUEST ASSIGNMENT",
        asks: "do two circuits ever clash?",
        more: "\
Done exactly where no two circuits ever hold one buffer or one local inport in one slot,
over all time. Else tells the first clash, which offsets bring it about, and the slot in
which packets first meet.
Prints `done`.",
    },
    Entry {
        name: "make",
        words: "REQUEST ASSIGNMENT TABLE",
        asks: "make the lines that the slots need, and write them to TABLE",
        more: "\
Refuses an assignment in which two circuits clash.
Prints `done bytes B lines L`.",
    },
    Entry {
        name: "verify",
        words: "REQUEST ASSIGNMENT TABLE",
        asks: "do these lines carry every packet, for ever?",
        more: "\
Takes a table from any tool. Done exactly where the network, started empty and steered by
these lines alone, carries every packet along its path for ever, and each line serves all of
a series or none of it. Else tells the first series that is not served, and the line that it
needs.
Prints `done`.",
    },
    Entry {
        name: "show",
        words: "FILE",
        asks: "list the records of a request, an assignment or a table",
        more: "\
One record to a line, whatever is wrong with the file.",
    },
];

pub fn job(name: &str) -> Option<&'static Entry> {
    JOBS.iter().find(|job| job.name == name)
}

pub const VERSION: &str = concat!("vask ", env!("CARGO_PKG_VERSION"), "\n");

const COMMON: &str = "\
`-` as a file is standard input, or standard output for a file that is written; the answer then goes to standard error.
A file is written whole or not at all: a job that is refused, or that fails in any way, leaves it as it was.

options:
  --json     the answer as JSON, for other tools
  --help     this text; behind a job, the help of that job
  --version  the version
  --         what follows is a file, even if it begins with a dash

exit status: 0 done, 1 refused, 2 wrong usage or a file that cannot be read or written
";

pub fn whole() -> String {
    let width = JOBS.iter().map(|job| job.name.len() + 1 + job.words.len()).max().unwrap_or(0);
    let mut text = "usage: vask JOB FILES..\n\njobs:\n".to_string();
    for job in &JOBS {
        let call = format!("{} {}", job.name, job.words);
        text += &format!("  vask {call:width$}  {}\n", job.asks);
    }
    text + "\nThe first line of an answer is `done`, or `refused` with its number and four details; further lines say it in words.\n"
        + COMMON
}

pub fn of_job(job: &Entry) -> String {
    format!("usage: vask {} {}\n\n{}\n\n{}\n\n{COMMON}", job.name, job.words, job.asks, job.more)
}
