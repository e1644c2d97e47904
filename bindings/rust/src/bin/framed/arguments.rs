//! What the arguments ask for.
use crate::help;
use std::ffi::{OsStr, OsString};

#[derive(Clone, Copy, Debug, PartialEq, Eq)]
pub enum Command {
    Run,
    Where,
    Check,
    Trace,
    Write,
    Replay,
}

impl Command {
    fn named(name: &OsStr) -> Option<Command> {
        Some(match name.to_str()? {
            "run" => Command::Run,
            "where" => Command::Where,
            "check" => Command::Check,
            "trace" => Command::Trace,
            "write" => Command::Write,
            "replay" => Command::Replay,
            _ => return None,
        })
    }

    pub fn name(self) -> &'static str {
        match self {
            Command::Run => "run",
            Command::Where => "where",
            Command::Check => "check",
            Command::Trace => "trace",
            Command::Write => "write",
            Command::Replay => "replay",
        }
    }

    fn options(self) -> &'static [&'static str] {
        match self {
            Command::Run => &["--frames", "--texts", "--fuel", "--look"],
            Command::Where => &["--frames", "--texts", "--fuel", "--always"],
            Command::Check => &["--frames", "--texts"],
            Command::Trace => &["--frames", "--texts", "--fuel"],
            Command::Write | Command::Replay => &[],
        }
    }

    /// What its file arguments are called in the usage.
    fn file(self) -> &'static str {
        match self {
            Command::Replay => "SCRIPT",
            _ => "MODEL",
        }
    }
}

#[derive(Debug, PartialEq, Eq)]
pub struct Options {
    pub files: Vec<OsString>,
    pub frames: u32,
    pub texts: u32,
    pub fuel: u32,
    pub looks: Vec<OsString>,
    pub always: bool,
}

impl Default for Options {
    fn default() -> Options {
        Options { files: Vec::new(), frames: 256, texts: 256, fuel: 100_000, looks: Vec::new(), always: false }
    }
}

#[derive(Debug, PartialEq, Eq)]
pub enum Request {
    /// How to use one command, or all.
    Help(Option<Command>),
    Version,
    Make(Command, Options),
}

/// What is asked for; or, where that cannot be made out, why, and the usage.
pub fn read(arguments: Vec<OsString>) -> Result<Request, String> {
    let Some((first, rest)) = arguments.split_first() else {
        return Err(format!("framed: no command is given\n{}", help::USAGE));
    };
    match first.to_str() {
        Some("--help" | "-h" | "help") => return Ok(Request::Help(None)),
        Some("--version") => return Ok(Request::Version),
        _ => {}
    }
    let Some(command) = Command::named(first) else {
        let name = first.to_string_lossy();
        return Err(format!("framed: no command `{name}`\n{}", help::USAGE));
    };
    if rest.iter().any(|argument| argument == "--help" || argument == "-h") {
        return Ok(Request::Help(Some(command)));
    }
    options(command, rest)
        .map(|options| Request::Make(command, options))
        .map_err(|why| format!("framed {}: {why}\nusage: {}", command.name(), help::usage(command)))
}

fn options(command: Command, arguments: &[OsString]) -> Result<Options, String> {
    let mut options = Options::default();
    let mut rest = arguments.iter();
    while let Some(argument) = rest.next() {
        let Some(option) = argument.to_str().filter(|text| text.len() > 1 && text.starts_with('-')) else {
            options.files.push(argument.clone());
            continue;
        };
        // `--fuel 9` or `--fuel=9`
        let (option, value) = option.split_once('=').map_or((option, None), |(name, value)| (name, Some(value)));
        if !command.options().contains(&option) {
            return Err(format!("no option `{option}`"));
        }
        let mut number = |range| match value {
            Some(value) => number(option, range, Some(OsStr::new(value))),
            None => number(option, range, rest.next().map(OsString::as_os_str)),
        };
        match option {
            "--frames" => options.frames = number("3 to 256")?,
            "--texts" => options.texts = number("0 to 256")?,
            "--fuel" => options.fuel = number("0 to 4294967295")?,
            "--always" if value.is_some() => return Err("--always takes no value".to_owned()),
            "--always" => options.always = true,
            _ if value.is_some() => options.looks.extend(value.map(OsString::from)),
            _ => rest = looks(rest.as_slice(), &mut options)?,
        }
    }
    files(command, &options)?;
    Ok(options)
}

/// A file is given, and no second one but to check.
fn files(command: Command, options: &Options) -> Result<(), String> {
    match options.files.as_slice() {
        [] => Err(format!("no {} is given", command.file())),
        [_, second, ..] if command != Command::Check => {
            Err(format!("one {} at a time, without `{}`", command.file(), second.to_string_lossy()))
        }
        _ => Ok(()),
    }
}

/// A number of 32 bits; one out of the option's own range is for the library to refuse.
fn number(option: &str, range: &str, value: Option<&OsStr>) -> Result<u32, String> {
    let wants = format!("{option} takes a number, {range}");
    let Some(value) = value else { return Err(wants) };
    let text = value.to_string_lossy();
    text.parse().map_err(|_| format!("{wants}, not `{text}`"))
}

/// Takes the paths up to the next option; the arguments behind them come back.
fn looks<'a>(arguments: &'a [OsString], options: &mut Options) -> Result<std::slice::Iter<'a, OsString>, String> {
    let is_option = |argument: &OsString| argument.as_encoded_bytes().starts_with(b"--");
    let count = arguments.iter().position(is_option).unwrap_or(arguments.len());
    if count == 0 {
        return Err("--look takes paths, as `self.faults`".to_owned());
    }
    options.looks.extend_from_slice(&arguments[..count]);
    Ok(arguments[count..].iter())
}
