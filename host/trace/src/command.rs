//! The command line: options, and files that are read whole.
use std::ffi::{OsStr, OsString};
use std::io::Write;
use std::os::unix::ffi::OsStrExt;
use std::process::ExitCode;

/// What a program is, as its command line needs it.
pub struct Program<const FILES: usize> {
    /// As it is called.
    pub name: &'static str,
    /// The text of --help.
    pub help: &'static str,
    /// Options besides --help; none takes a value.
    pub options: &'static [&'static str],
    /// What is wrong where another number of files is named.
    pub files: &'static str,
}

/// Exit status where the command line or a file is at fault.
const NOT_RUN: u8 = 2;

enum Asked<'w, const FILES: usize> {
    Help,
    Run(Vec<&'w str>, [&'w OsStr; FILES]),
}

impl<const FILES: usize> Program<FILES> {
    /// Reads the files, says what `tell` makes of them and of the options, and ends with its status.
    pub fn run(&self, tell: impl FnOnce(&[&str], [&[u8]; FILES]) -> (String, u8)) -> ExitCode {
        let words: Vec<_> = std::env::args_os().skip(1).collect();
        let outcome = self.parse(&words).and_then(|asked| match asked {
            Asked::Help => Ok((self.help.into(), 0)),
            Asked::Run(options, files) => {
                let read: Result<Vec<_>, _> = files.into_iter().map(read).collect();
                let read = read?;
                let mut bytes: [&[u8]; FILES] = [&[]; FILES];
                for (to, from) in bytes.iter_mut().zip(&read) {
                    *to = from;
                }
                Ok(tell(&options, bytes))
            }
        });
        let status = outcome.and_then(|(text, status)| say(&text).map(|()| status));
        ExitCode::from(status.unwrap_or_else(|why| {
            eprintln!("{}: {why}", self.name);
            NOT_RUN
        }))
    }

    fn parse<'w>(&self, words: &'w [OsString]) -> Result<Asked<'w, FILES>, String> {
        let (mut options, mut files, mut ended) = (Vec::new(), Vec::new(), false);
        for word in words.iter().map(OsString::as_os_str) {
            match word.to_str() {
                _ if ended => files.push(word),
                Some("--") => ended = true,
                Some("--help" | "-h") => return Ok(Asked::Help),
                Some(option) if self.options.contains(&option) => options.push(option),
                _ if word.as_bytes().starts_with(b"-") => {
                    return Err(format!("unknown option {}; see --help", word.display()));
                }
                _ => files.push(word),
            }
        }
        if files.iter().any(|file| file.is_empty()) {
            return Err("a file's name is empty".into());
        }
        let files = files.try_into().map_err(|_| format!("{}; see --help", self.files))?;
        Ok(Asked::Run(options, files))
    }
}

fn read(file: &OsStr) -> Result<Vec<u8>, String> {
    std::fs::read(file).map_err(|why| format!("cannot read {}: {why}", file.display()))
}

fn say(text: &str) -> Result<(), String> {
    let written = std::io::stdout().write_all(text.as_bytes());
    written.map_err(|why| format!("cannot write to standard output: {why}"))
}
