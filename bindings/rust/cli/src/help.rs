//! The commands with their options and examples: the help, the man page and the completions are made of this table.

use crate::commands::load;

pub mod completions;
pub mod man;

/// An option; `value` names what it takes, and is empty where it takes nothing.
pub struct Opt {
    pub name: &'static str,
    pub value: &'static str,
    pub about: &'static str,
}

pub struct Command {
    pub name: &'static str,
    pub usage: &'static str,
    /// The first sentence says what the command is for.
    pub about: &'static str,
    pub options: &'static [Opt],
    pub example: &'static str,
}

const fn opt(name: &'static str, value: &'static str, about: &'static str) -> Opt {
    Opt { name, value, about }
}

const HELP: Opt = opt("--help", "", "print this");
const JSON: Opt = opt("--json", "", "print the answer as one JSON object on standard output");
const FORCE: Opt = opt("--force", "", "overwrite files that are there");
const JOB: Opt = opt("--job", "FILE", "the job: the statement");
const RANDOMNESS: Opt = opt("--randomness", "FILE", "the randomness of the transcript");
const WITNESS: Opt = opt("--witness", "FILE", "the witness; it is secret");
const STRICT: Opt =
    opt("--strict", "", "exit status 1 also where a check can never fail or any statement is accepted under this job, or weights are all zero");
const TRANSCRIPT: Opt = opt("--transcript", "FILE", "the transcript");
const REFERENCE: Opt = opt("--reference", "TEXT", "what it is filed under: a line of text");
const DATE: Opt = opt("--date", "YYYY-MM-DD", "the day that it is filed under; no clock is read");

pub const LOAD: Command = Command {
    name: "load",
    usage: "labrador load [NAME=VALUE]… [--seed N] --job FILE --witness FILE --randomness FILE",
    about: "Makes a test load that anyone can repeat: a job, a witness that meets it, and randomness.",
    options: &[
        opt("--seed", "NUMBER", "the seed, 0 to 4294967295 (1 where it is not given)"),
        JOB,
        WITNESS,
        RANDOMNESS,
        FORCE,
        JSON,
        HELP,
    ],
    example: "labrador load n=8 r=2 --seed 2026 --job a.job --witness a.witness --randomness a.randomness",
};

pub const DESCRIBE: Command = Command {
    name: "describe",
    usage: "labrador describe [--job FILE] [--as KIND] [--statement FILE] [--reference TEXT] [--date YYYY-MM-DD] FILE…",
    about: "Says what files hold, and first what is wrong with them. Prints each file's SHA-256; a job's parameters by name; each section with its \
            place, count and meaning; what each constraint of a job states: its right side, and the vectors that it touches with how many \
            terms. Then the version, and the SHA-256 of the archive of proved calls. The others are described by a job: the one that --job \
            names, or the first among the files.",
    options: &[
        JOB,
        opt("--as", "KIND", "read the files as job, randomness, witness or transcript, whatever they look like"),
        STATED,
        REFERENCE,
        DATE,
        JSON,
        HELP,
    ],
    example: "labrador describe a.job a.randomness a.transcript",
};

pub const REVIEW: Command = Command {
    name: "review",
    usage: "labrador review JOB",
    about: "Says what an acceptance is worth and what the job does not force. Of every job it says what chance one accepted transcript \
            leaves a false statement, how many transcripts give 64 bits, and what the statement does not force, the worst first: checks \
            that can never fail, rows of A that are multiples of each other, norms and totals that can be wrong, constraints that say \
            nothing, repeat or contradict another. The chances are those of the attacks that are known. Exit status 0 where it finds only what holds of every job, 1 with more.",
    options: &[JSON, HELP],
    example: "labrador review a.job",
};

pub const PROVE: Command = Command {
    name: "prove",
    usage: "labrador prove --job FILE --randomness FILE --witness FILE --transcript FILE",
    about: "Makes the transcript of a job, randomness and a witness.",
    options: &[
        JOB,
        RANDOMNESS,
        WITNESS,
        TRANSCRIPT,
        opt("--rounds", "", "work round after round, which gives the same transcript"),
        FORCE,
        JSON,
        HELP,
    ],
    example: "labrador prove --job a.job --randomness a.randomness --witness a.witness --transcript a.transcript",
};

pub const ROUND: Command = Command {
    name: "round",
    usage: "labrador round K --job FILE [--randomness FILE] --witness FILE --output FILE",
    about: "Makes the store's message of one round of a session (docs/SESSION.md). Rounds 1 to 5 make u1; p; b''; u2; z, t, g and h. From round 2 on \
            the randomness is what the desk has drawn up to that round, and nothing more; round 1 takes none. The five messages, joined by \
            cat, are the transcript.",
    options: &[
        JOB,
        opt("--randomness", "FILE", "the randomness up to this round, as labrador draw makes it"),
        WITNESS,
        opt("--output", "FILE", "the round's message"),
        FORCE,
        JSON,
        HELP,
    ],
    example: "labrador round 2 --job a.job --randomness 1.randomness --witness a.witness --output 1.p",
};

pub const DRAW: Command = Command {
    name: "draw",
    usage: "labrador draw --job FILE --round K --randomness FILE",
    about: "Draws the desk's randomness for one round of a session (docs/SESSION.md). It comes from the operating system's generator. Round 2 makes \
            the file, with the projection; the others add their sections to it: 3 psi and omega, 4 alpha and beta, 5 signs and shuffle. The \
            file is replaced whole; it is refused, and stays as it is, where it is not the randomness of the round before. Each transcript \
            has a file of its own, and nothing is drawn before the message of the round before is there.",
    options: &[
        JOB,
        opt("--round", "NUMBER", "the round, 2 to 5, that the randomness is drawn for"),
        opt("--randomness", "FILE", "the transcript's randomness, made by round 2 and added to by the others"),
        opt("--force", "", "with round 2: overwrite the file"),
        JSON,
        HELP,
    ],
    example: "labrador draw --job a.job --round 2 --randomness 1.randomness",
};

pub const VERIFY: Command = Command {
    name: "verify",
    usage: "labrador verify --job FILE --randomness FILE --transcript FILE [--report PAGE.html] [--reference TEXT] [--date YYYY-MM-DD] \
            [--statement FILE] [--strict]",
    about: "Judges a transcript. An acceptance is said with the chance that it leaves a false statement, which no single transcript \
            makes small, and with the number of things that the job does not force, which labrador review lists. Exit status 0 \
            accepted, 1 a failed check, 2 refused. The randomness is taken as it is handed in: a verdict forces nothing where the sender \
            could choose it, or hashed it from this transcript alone. The page is to be filed: it has the SHA-256 of the three files, what \
            the job states, and a line to sign on, and is the same for the same files and options.",
    options: &[
        JOB,
        RANDOMNESS,
        TRANSCRIPT,
        opt("--report", "FILE", "write the verdict as a page to read, print, sign and file"),
        REFERENCE,
        DATE,
        STATED,
        STRICT,
        FORCE,
        JSON,
        HELP,
    ],
    example: "labrador verify --job a.job --randomness a.randomness --transcript a.transcript --report a.html",
};

pub const VERIFY_MANY: Command = Command {
    name: "verify-many",
    usage: "labrador verify-many [--report PAGE.html] [--reference TEXT] [--date YYYY-MM-DD] [--statement FILE] [--strict] [--threads N] --job FILE \
            RANDOMNESS TRANSCRIPT [RANDOMNESS TRANSCRIPT]…",
    about: "Judges any number of transcripts for one job, each with its own randomness, and prints a line for each. It says what \
            the accepted ones are worth together if the desk drew the randomness and nothing was tried again; each that failed was another \
            chance, and what is handed in twice counts once. They are judged in groups of at most eight, on several threads; no more than eight are held in memory at a time, or \
            as many as there are threads. Exit status 0 all accepted, 1 a failed check, 2 one is refused.",
    options: &[
        JOB,
        opt("--report", "FILE", "write all verdicts, and what they are worth together, as a page to read or print"),
        REFERENCE,
        DATE,
        opt("--threads", "NUMBER", "work on so many threads (as many as processors where it is not given)"),
        STATED,
        STRICT,
        FORCE,
        JSON,
        HELP,
    ],
    example: "labrador verify-many --job a.job north.randomness north.transcript south.randomness south.transcript",
};

pub const MISTYPED: Command = Command {
    name: "mistyped",
    usage: "labrador mistyped --job FILE --randomness FILE --transcript FILE",
    about: "Lists which constants were perhaps mistyped, after a failed check 22. Each is an entry of b0 that would mend it if a number were \
            added to that entry alone: told are the number of smallest size and what the entry would become. The smallest size comes first, of equal sizes lowered constants. A mended \
            constant is another claim, which is proved anew. Exit status 0 where there is a list, 2 refused: also where check 22 is not the \
            failed one (32), or no constant alone mends it (33).",
    options: &[JOB, RANDOMNESS, TRANSCRIPT, JSON, HELP],
    example: "labrador mistyped --job a.job --randomness a.randomness --transcript a.transcript",
};

const FIRST: Opt = opt("--first", "NUMBER", "the run's first vector, counted from 0");
const END: Opt = opt("--end", "NUMBER", "the vector after the run's last");
const PROJECTION: Opt = opt("--projection", "FILE", "the run's projection words");
const VECTORS: Opt = opt("--vectors", "FILE", "the run's witness vectors; they are secret");

pub const SHED_PARTS: Command = Command {
    name: "shed-parts",
    usage: "labrador shed-parts --job FILE --randomness FILE --witness FILE --first N --end N --projection FILE --vectors FILE",
    about: "Takes what one shed's machine is handed out of a whole witness and a whole randomness. That is a run of witness vectors and its \
            projection words.",
    options: &[JOB, RANDOMNESS, WITNESS, FIRST, END, PROJECTION, VECTORS, FORCE, JSON, HELP],
    example: "labrador shed-parts --job a.job --randomness a.randomness --witness a.witness --first 0 --end 2 --projection shed1/projection \
              --vectors shed1/vectors",
};

pub const SHED_PROJECTION: Command = Command {
    name: "shed-projection",
    usage: "labrador shed-projection --job FILE --first N --end N --projection FILE --vectors FILE --p FILE",
    about: "Makes the p of a run of witness vectors. The p of all runs, added in any order, are round 2's output.",
    options: &[
        JOB,
        FIRST,
        END,
        PROJECTION,
        VECTORS,
        opt("--p", "FILE", "the run's p, for its owner alone: only the sum is sent"),
        FORCE,
        JSON,
        HELP,
    ],
    example: "labrador shed-projection --job a.job --first 0 --end 2 --projection shed1/projection --vectors shed1/vectors --p shed1/p",
};

pub const SHED_ROWS: Command = Command {
    name: "shed-rows",
    usage: "labrador shed-rows --job FILE --first N --end N --vectors FILE --rows FILE",
    about: "Makes the rows of t of a run of witness vectors. The rows of all runs, without their counts, by rising index, are section t.",
    options: &[JOB, FIRST, END, VECTORS, opt("--rows", "FILE", "the run's rows of t"), FORCE, JSON, HELP],
    example: "labrador shed-rows --job a.job --first 0 --end 2 --vectors shed1/vectors --rows shed1/rows",
};

pub const ADD_PROJECTIONS: Command = Command {
    name: "add-projections",
    usage: "labrador add-projections --p FILE P P…",
    about: "Adds the p of two or more runs. They are added in the order in which they are given; every order gives the same sum.",
    options: &[opt("--p", "FILE", "the sum"), FORCE, JSON, HELP],
    example: "labrador add-projections --p a.p shed1/p shed2/p",
};

const STATED: Opt = opt(
    "--statement",
    "FILE",
    "a statement file: is the job its job, and are A to D those of its seed? Status 1 where not",
);

pub const STATEMENT: Command = Command {
    name: "statement",
    usage: "labrador statement FILE --job FILE | --from JOB [--seed HEX]",
    about: "Makes the job of a statement file, in which a store writes its totals (docs/STATEMENT.md). With --from prints the statement file of \
            a job whose constraints are all totals; exit status 1 where one is none, or where A to D are not those of the seed.",
    options: &[
        JOB,
        opt("--from", "JOB", "print the statement file of this job"),
        opt("--seed", "HEX", "with --from: the seed of A to D, 64 hex digits"),
        FORCE,
        JSON,
        HELP,
    ],
    example: "labrador statement sheds.statement --job sheds.job",
};

pub const STOCK: Command = Command {
    name: "stock",
    usage: "labrador stock FILE --job FILE --witness FILE",
    about: "Makes the witness of a stock list. The list has a number a line, line 0 of s0 first, or vector,line,number a line. Lines that \
            are not given are 0.",
    options: &[JOB, WITNESS, FORCE, JSON, HELP],
    example: "labrador stock sheds.stock --job sheds.job --witness sheds.witness",
};

pub const CHECK: Command = Command {
    name: "check",
    usage: "labrador check --job FILE --witness FILE",
    about: "Says before anything is proved which totals a witness meets. It says by how many grams it misses the others, and each vector's norm \
            against A's bound. Exit status 0 all met, 1 something is missed or met modulo Q only, 2 unfit.",
    options: &[JOB, WITNESS, JSON, HELP],
    example: "labrador check --job sheds.job --witness sheds.witness",
};

pub const BOUNDS: Command = Command {
    name: "bounds",
    usage: "labrador bounds --statement FILE --stock FILE [--slack PERCENT] [--sessions N]",
    about: "Prints the bounds that honest transcripts of a statement and a stock need. They are the six lines of a statement file, which \
            may lack them here. Exit status 1 where the stock misses a total, which is told with its line, or \
            one of the transcripts would not pass.",
    options: &[
        opt("--statement", "FILE", "the statement file"),
        opt("--stock", "FILE", "the stock list; it is secret"),
        opt("--slack", "PERCENT", "so much is added to what is needed (10 where it is not given)"),
        opt("--sessions", "NUMBER", "so many transcripts are tried (40 where it is not given)"),
        JSON,
        HELP,
    ],
    example: "labrador bounds --statement sheds.statement --stock sheds.stock",
};

pub const RANGES: Command = Command {
    name: "ranges",
    usage: "labrador ranges --job FILE --lows FILE --highs FILE",
    about: "Says of a witness that is known within ranges whether each vector's norm meets A's bound. Each coefficient is known from a \
            lowest to a highest centred number; the bound is met for every choice, for some choices but not every, or for none, and the smallest \
            and the largest norm are told. Both files \
            have 64·r·n words of eight bytes with a sign (i64), the least byte first, in the witness's order and without a count. Exit status \
            0 where all meet it for every choice, 1 where one does not, 2 refused.",
    options: &[
        JOB,
        opt("--lows", "FILE", "the lowest number of each coefficient; they are secret"),
        opt("--highs", "FILE", "the highest number of each coefficient; they are secret"),
        JSON,
        HELP,
    ],
    example: "labrador ranges --job sheds.job --lows sheds.lows --highs sheds.highs",
};

pub const EXPLAIN: Command = Command {
    name: "explain",
    usage: "labrador explain [NUMBER]",
    about: "Says what the number of a refusal or of a failed check means. Without a number it says all of them, in a line each.",
    options: &[JSON, HELP],
    example: "labrador explain 22",
};

pub const COMMANDS: [&Command; 19] = [
    &LOAD,
    &DESCRIBE,
    &REVIEW,
    &PROVE,
    &ROUND,
    &DRAW,
    &VERIFY,
    &VERIFY_MANY,
    &MISTYPED,
    &SHED_PARTS,
    &SHED_PROJECTION,
    &SHED_ROWS,
    &ADD_PROJECTIONS,
    &STATEMENT,
    &STOCK,
    &CHECK,
    &BOUNDS,
    &RANGES,
    &EXPLAIN,
];

impl Opt {
    /// Whether it takes the name of a file.
    pub fn takes_file(&self) -> bool {
        matches!(self.value, "FILE" | "JOB")
    }

    /// `--job FILE`
    fn called(&self) -> String {
        format!("{} {}", self.name, self.value).trim_end().to_string()
    }
}

impl Command {
    pub fn hint(&self) -> String {
        format!("labrador {} --help says more", self.name)
    }

    /// What the command is for.
    fn brief(&self) -> &'static str {
        self.about.split(". ").next().unwrap_or_default().trim_end_matches('.')
    }

    pub fn help(&self) -> String {
        let mut out = format!("{}\n\n  {}\n\n", self.about, self.usage);
        for option in self.options {
            out += &format!("  {:<20} {}\n", option.called(), option.about);
        }
        if self.name == LOAD.name {
            out += "\nParameters, with the value of one that is not given:\n";
            for (given, meaning) in load::parameters_help() {
                out += &format!("  {given:<20} {meaning}\n");
            }
            out += &format!("  {}\n", load::L_HELP);
        }
        out + &format!("\nExample:\n  {}\n", self.example)
    }
}

/// What the program is.
const ABOUT: &str = "LaBRADOR from the command line, over proved calls.";
/// What its files are.
const FILES: &str =
    "Files are words of four bytes, the least byte first. - is no file: standard input is not read, and files are not \
                     written to standard output.";
const STATUSES: [(u8, &str); 5] = [
    (0, "accepted or made"),
    (1, "a failed check or something found"),
    (2, "refused or unfit input"),
    (3, "the file system failed"),
    (64, "a wrong call"),
];
/// The calls that are no commands.
const OTHERS: [(&str, &str); 4] = [
    ("help [COMMAND]", "says what the commands are for, or how one is called, as COMMAND --help does"),
    ("help --man", "prints the man page"),
    ("help --bash, --zsh", "prints the completions for the shell"),
    ("--version, -V", "prints the version"),
];

pub fn general() -> String {
    let mut out = format!("{ABOUT}\n\n");
    for command in COMMANDS {
        out += &format!("  {:<18} {}\n", command.name, command.brief());
    }
    out += "\n";
    for (call, about) in OTHERS {
        out += &format!("  {call:<18} {about}\n");
    }
    let statuses = STATUSES.map(|(status, meaning)| format!("{status} {meaning}")).join(", ");
    out + &format!("\n{FILES}\nExit status: {statuses}.\nlabrador COMMAND --help says more.\n")
}

/// The name under which the program is called, for its man page and completions.
fn program() -> String {
    let called = std::env::args_os().next().map(std::path::PathBuf::from);
    let name = called.and_then(|path| path.file_name()?.to_str().map(str::to_string));
    let plain = |name: &String| name.chars().all(|c| c.is_ascii_alphanumeric() || "-_.".contains(c));
    name.filter(plain).unwrap_or_else(|| "labrador".to_string())
}
