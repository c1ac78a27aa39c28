//! Running a program under test on a case and looking at what it left.

use super::case::{Case, Files};
use crate::disk;
use crate::reply::Trouble;
use std::fs;
use std::path::Path;
use std::process::{Command, Output, Stdio};

/// The most bytes of a file that are shown.
const SHOWN: usize = 60;

/// What a program did.
struct Observed {
    ended: Output,
    files: Files,
}

/// What is left of a case.
pub struct Left {
    /// On standard output.
    pub output: Vec<u8>,
    pub files: Files,
}

/// What came of a case.
pub enum Outcome {
    /// As expected, and this is left.
    Agrees(Left),
    /// Otherwise, as told.
    Differs(String),
}

/// Runs the case in a folder made for it below `scratch`. The folder stays if the
/// outcome differs from the expected one.
pub fn run(case: &Case, programs: &Path, scratch: &Path) -> Result<Outcome, Trouble> {
    let program = programs.join(case.program.name());
    let folder = scratch.join("case");
    lay_out(&case.files, &folder)?;
    let ended = Command::new(&program)
        .args(&case.words)
        .current_dir(&folder)
        .stdin(Stdio::null())
        .output()
        .map_err(|error| disk::trouble("run", &program, &error))?;
    let files = read_folder(&folder)?;
    let observed = Observed { ended, files };
    if agrees(case, &observed) {
        fs::remove_dir_all(&folder).map_err(|error| disk::trouble("remove", &folder, &error))?;
        return Ok(Outcome::Agrees(Left {
            output: observed.ended.stdout,
            files: observed.files,
        }));
    }
    let (folder, program) = (folder.display(), program.display());
    Ok(Outcome::Differs(format!(
        "kind:     {}\nfiles:    {folder}\ncommand:  {program} {}\nexpected: {}\nobserved: {}\n",
        case.what,
        in_quotes(&case.words),
        expected_in_words(case),
        observed_in_words(case, &observed),
    )))
}

fn agrees(case: &Case, observed: &Observed) -> bool {
    let Observed { ended, files } = observed;
    ended.status.code() == Some(case.expected.status())
        && case.expected.allows(case.program, &ended.stdout)
        && case.expected.complains() != ended.stderr.is_empty()
        && *files == case.files_after()
}

fn lay_out(files: &Files, folder: &Path) -> Result<(), Trouble> {
    fs::create_dir(folder).map_err(|error| disk::trouble("make", folder, &error))?;
    files
        .iter()
        .try_for_each(|(name, bytes)| disk::write(folder.join(name), bytes))
}

fn read_folder(folder: &Path) -> Result<Files, Trouble> {
    let trouble = |error| disk::trouble("look into", folder, &error);
    let mut files = Files::new();
    for entry in fs::read_dir(folder).map_err(trouble)? {
        let entry = entry.map_err(trouble)?;
        let name = entry.file_name().to_string_lossy().into_owned();
        files.insert(name, disk::read(entry.path())?);
    }
    Ok(files)
}

fn in_quotes(words: &[String]) -> String {
    let quoted: Vec<String> = words.iter().map(|word| format!("'{word}'")).collect();
    quoted.join(" ")
}

fn expected_in_words(case: &Case) -> String {
    let complaint = if case.expected.complains() {
        "something"
    } else {
        "nothing"
    };
    format!(
        "status {}, output {}, error {complaint}, {}",
        case.expected.status(),
        case.expected.output(case.program),
        written_in_words(case, &case.files_after()),
    )
}

fn observed_in_words(case: &Case, Observed { ended, files }: &Observed) -> String {
    let mut words = format!(
        "{}, output {:?}, error {:?}, {}",
        ended
            .status
            .code()
            .map_or("no status".to_string(), |code| format!("status {code}")),
        String::from_utf8_lossy(&ended.stdout),
        String::from_utf8_lossy(&ended.stderr),
        written_in_words(case, files),
    );
    for name in case.files.keys().chain(files.keys()) {
        if Some(name.as_str()) != case.program.writes() && case.files.get(name) != files.get(name) {
            words += &format!(", file {name} not as it was");
        }
    }
    words
}

/// The file that the program may write, as it is among `files`.
fn written_in_words(case: &Case, files: &Files) -> String {
    let Some(name) = case.program.writes() else {
        return "no file to write".to_string();
    };
    match files.get(name) {
        None => format!("no file {name}"),
        Some(bytes) => {
            let shown = &bytes[..bytes.len().min(SHOWN)];
            let more = if bytes.len() > SHOWN { ".." } else { "" };
            format!("file {name} of {} bytes {shown:?}{more}", bytes.len())
        }
    }
}
