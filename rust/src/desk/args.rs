//! The words of the command line, and what they ask for.
use std::ffi::{OsStr, OsString};
use std::path::{Path, PathBuf};
use tariff::Text;
use tariff::questions::question;

pub const USAGE: &str = "\
tariff check THEORY GOALS PROOF [--facts] [--explain] [--json]
tariff check FOLDER...          [--facts] [--explain] [--json]
tariff explain [NUMBER...]";

/// What is printed beside the line of an answer, or in its place.
#[derive(Clone, Copy, Debug, Default, PartialEq, Eq)]
pub struct Options {
    pub facts: bool,
    pub explain: bool,
    pub json: bool,
}

/// The three files of a tariff.
#[derive(Clone, Debug, PartialEq, Eq)]
pub struct Case {
    /// Where the files were given as a folder: as it was written.
    pub folder: Option<String>,
    /// In the order of `Text::ALL`.
    pub files: [PathBuf; 3],
}

impl Case {
    fn of_folder(folder: &OsStr) -> Self {
        Case { folder: Some(shown(folder)), files: Text::ALL.map(|t| Path::new(folder).join(t.name())) }
    }

    /// What it is called in a list.
    pub fn name(&self) -> String {
        self.folder.clone().unwrap_or_else(|| self.files[2].display().to_string())
    }
}

#[derive(Debug, PartialEq, Eq)]
pub enum Command {
    Check(Vec<Case>, Options),
    Explain(Vec<u32>),
    Help,
}

/// A word as it is printed; a path need not be text.
fn shown(word: &OsStr) -> String {
    word.to_string_lossy().into_owned()
}

pub fn command(words: &[OsString]) -> Result<Command, String> {
    let (options, plain) = options(words)?;
    match (&plain[..], options) {
        (_, None) | ([], _) => Ok(Command::Help),
        ([first, paths @ ..], Some(options)) if first == "check" => Ok(Command::Check(cases(paths)?, options)),
        ([first, numbers @ ..], Some(options)) if first == "explain" && options == Options::default() => {
            numbers.iter().map(|n| number(n)).collect::<Result<_, _>>().map(Command::Explain)
        }
        _ => Err(format!("these words are not understood\n{USAGE}")),
    }
}

/// The options, wherever they stand, and the other words; no options where help is asked for.
fn options(words: &[OsString]) -> Result<(Option<Options>, Vec<OsString>), String> {
    let (mut options, mut plain) = (Options::default(), Vec::new());
    let mut words = words.iter();
    while let Some(word) = words.next() {
        match word.to_str() {
            Some("--facts") => options.facts = true,
            Some("--explain") => options.explain = true,
            Some("--json") => options.json = true,
            Some("--help" | "-h") => return Ok((None, plain)),
            Some("--") => plain.extend(words.by_ref().cloned()),
            Some(w) if w.starts_with('-') && w.len() > 1 => return Err(format!("there is no option {w}\n{USAGE}")),
            _ => plain.push(word.clone()),
        }
    }
    Ok((Some(options), plain))
}

fn number(word: &OsStr) -> Result<u32, String> {
    let known = word.to_str().and_then(|w| w.parse().ok()).filter(|&n| question(n).is_some());
    known.ok_or_else(|| format!("there is no question {}: `tariff explain` lists all of them", shown(word)))
}

/// Three files, or folders with files of the usual names.
fn cases(paths: &[OsString]) -> Result<Vec<Case>, String> {
    let folder = |p: &OsString| Path::new(p).is_dir();
    match paths {
        [] => Err(format!("what is to be checked?\n{USAGE}")),
        _ if paths.iter().all(folder) => Ok(paths.iter().map(|p| Case::of_folder(p)).collect()),
        [theory, goals, proof] if !paths.iter().any(folder) => {
            Ok(vec![Case { folder: None, files: [theory, goals, proof].map(PathBuf::from) }])
        }
        _ => {
            let odd = paths.iter().find(|p| !folder(p)).expect("not all are folders");
            Err(format!("{}: no such folder; three files, or folders, are checked\n{USAGE}", shown(odd)))
        }
    }
}

#[cfg(test)]
mod tests {
    use super::*;

    fn of(words: &str) -> Result<Command, String> {
        command(&words.split_whitespace().map(OsString::from).collect::<Vec<_>>())
    }

    #[test]
    fn files_and_options_in_any_order() {
        let files = ["a", "b", "c"].map(PathBuf::from);
        let want = Command::Check(vec![Case { folder: None, files }], Options { facts: true, explain: false, json: true });
        assert_eq!(of("check --json a b --facts c"), Ok(want));
    }

    #[test]
    fn a_folder_has_the_usual_names() {
        let Ok(Command::Check(cases, _)) = of("check src tests") else { panic!("two folders") };
        assert_eq!(cases[1].files[1], Path::new("tests/goals"));
    }

    #[test]
    fn what_is_not_understood() {
        for words in
            ["check", "check a", "check a b", "check a b c d", "check src a b", "check a b c --loud", "explain 6", "explain x", "look"]
        {
            assert!(of(words).is_err(), "{words}");
        }
        assert_eq!(of("explain 41 53"), Ok(Command::Explain(vec![41, 53])));
        assert_eq!(of(""), Ok(Command::Help));
        assert_eq!(of("check --help"), Ok(Command::Help));
    }
}
