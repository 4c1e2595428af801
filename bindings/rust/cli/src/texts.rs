//! Files of text: statement files and stock lists.

use std::fs::File;
use std::io::Read;
use std::path::Path;

use labrador::statement::{text_of, Mistake, Mistakes, Statement};

use crate::end::{file_system, unfit, End, Status};
use crate::json::Json;

/// A text has at most so many bytes: the longest that a job can be told in is shorter.
const MOST: u64 = 1 << 28;

fn fields(mistake: &Mistake) -> Vec<(&'static str, Json)> {
    vec![
        ("line", Json::Number(mistake.line as u64)),
        ("column", Json::Number(mistake.column as u64)),
        ("found", Json::text(&mistake.found)),
        ("expected", Json::text(&mistake.fault)),
    ]
}

/// The mistakes in a file, a line each.
pub fn wrong(path: &Path, mistakes: &Mistakes) -> End {
    let shown = path.display();
    let lines: Vec<String> = mistakes.all().iter().map(|mistake| format!("{shown}: {mistake}")).collect();
    let all = mistakes.all().iter().map(|mistake| Json::Object(fields(mistake))).collect();
    let end = End::of_lines(Status::Unfit, &lines).with(vec![("file", Json::text(shown))]);
    end.with(fields(mistakes.first())).with(vec![("mistakes", Json::List(all))])
}

/// The text of a file.
pub fn read(path: &Path) -> Result<String, End> {
    let failed = |error: std::io::Error| file_system(format!("{}: {error}", path.display()));
    let file = File::open(path).map_err(failed)?;
    if file.metadata().map_err(failed)?.is_dir() {
        return Err(file_system(format!("{} is a folder, not a text", path.display())));
    }
    let mut bytes = Vec::new();
    file.take(MOST + 1).read_to_end(&mut bytes).map_err(failed)?;
    if bytes.len() as u64 > MOST {
        return Err(unfit(format!("{} has more than {MOST} bytes", path.display())));
    }
    text_of(&bytes).map(str::to_string).map_err(|mistake| wrong(path, &mistake.into()))
}

/// The statement of a file.
pub fn statement(path: &Path) -> Result<Statement, End> {
    Statement::parse(&read(path)?).map_err(|mistakes| wrong(path, &mistakes))
}
