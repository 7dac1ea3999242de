//! What the sources call of the kit's `clap`: words `--NAME`, with a value or without one, and one word alone.

use super::host::HostRuntime;
use super::{AllocError, Global};
use std::io::{self, Write};

#[derive(Clone, Copy, PartialEq, Eq)]
pub enum ArgAction {
    Set,
    SetTrue,
}

pub struct Arg<'a> {
    name: &'a str,
    is_long: bool,
    is_required: bool,
    action: ArgAction,
    help: &'a str,
}

impl<'a> Arg<'a> {
    pub fn new(_alloc: Global, name: &'a str) -> Arg<'a> {
        Arg { name, is_long: false, is_required: false, action: ArgAction::Set, help: "" }
    }

    pub fn long(self, name: &'a str) -> Arg<'a> {
        Arg { name, is_long: true, ..self }
    }

    pub fn help(self, help: &'a str) -> Arg<'a> {
        Arg { help, ..self }
    }

    pub fn action(self, action: ArgAction) -> Arg<'a> {
        Arg { action, ..self }
    }

    pub fn required(self, is_required: bool) -> Arg<'a> {
        Arg { is_required, ..self }
    }

    fn shown(&self) -> String {
        match (self.is_long, self.action) {
            (false, _) => format!("<{}>", self.name),
            (_, ArgAction::Set) => format!("--{0} <{0}>", self.name),
            (_, ArgAction::SetTrue) => format!("--{}", self.name),
        }
    }
}

pub struct Command<'a> {
    name: &'a str,
    version: &'a str,
    about: &'a str,
    args: Vec<Arg<'a>>,
}

/// The words that were given, by the numbers of what they say, in their order.
pub struct ArgMatches<'a> {
    given: Vec<(&'a str, &'a str)>,
}

/// What is said in the place of a run.
pub struct Error {
    text: String,
    is_refusal: bool,
}

impl<'a> ArgMatches<'a> {
    pub fn get_str(&self, name: &str) -> Option<&'a str> {
        self.given.iter().find(|(given, _)| *given == name).map(|(_, value)| *value)
    }

    pub fn get_flag(&self, name: &str) -> bool {
        self.get_str(name).is_some()
    }
}

/// The kinds of what is said. That memory lacks isn't among what comes: the host's own allocator stops then.
pub mod error {
    #[derive(Clone, Copy, PartialEq, Eq)]
    pub enum ErrorKind {
        UnknownArgument,
        DisplayHelp,
        OutOfMemory,
    }
}

impl Error {
    pub fn kind(&self) -> error::ErrorKind {
        match self.is_refusal {
            true => error::ErrorKind::UnknownArgument,
            false => error::ErrorKind::DisplayHelp,
        }
    }

    pub fn print(&self, _rt: &HostRuntime) -> io::Result<()> {
        match self.is_refusal {
            true => io::stderr().write_all(self.text.as_bytes()),
            false => io::stdout().write_all(self.text.as_bytes()),
        }
    }

    pub fn use_stderr(&self) -> bool {
        self.is_refusal
    }
}

impl<'a> Command<'a> {
    pub fn new(_alloc: Global, name: &'a str) -> Command<'a> {
        Command { name, version: "", about: "", args: Vec::new() }
    }

    pub fn version(self, version: &'a str) -> Command<'a> {
        Command { version, ..self }
    }

    pub fn about(self, about: &'a str) -> Command<'a> {
        Command { about, ..self }
    }

    pub fn arg(mut self, arg: Arg<'a>) -> Result<Command<'a>, AllocError> {
        self.args.push(arg);
        Ok(self)
    }

    /// The line of the words that there may be, or of those that have to be there with those that are given.
    fn usage(&self, program: &str, given: &[(&str, &str)]) -> String {
        let mut words = vec![format!("Usage: {program}")];
        if given.is_empty() {
            words.push("[OPTIONS]".to_string());
        }
        let options = || self.args.iter().filter(|arg| arg.is_long);
        words.extend(options().filter(|arg| arg.is_required).map(Arg::shown));
        let asked = |name: &str| options().find(|arg| arg.name == name && !arg.is_required);
        words.extend(given.iter().filter_map(|(name, _)| asked(name)).map(Arg::shown));
        words.extend(self.args.iter().filter(|arg| !arg.is_long).map(Arg::shown));
        words.join(" ")
    }

    fn help(&self, program: &str) -> String {
        let mut lines: Vec<(String, &str)> = self.args.iter().filter(|arg| arg.is_long).map(|arg| (format!("    {}", arg.shown()), arg.help)).collect();
        lines.extend([("-h, --help".to_string(), "Print help"), ("-V, --version".to_string(), "Print version")]);
        let table = |lines: &[(String, &str)]| {
            let width = lines.iter().map(|(words, _)| words.len()).max().unwrap_or(0);
            lines.iter().map(|(words, help)| format!("  {words:width$}  {help}\n")).collect::<String>()
        };
        let alone: Vec<(String, &str)> = self.args.iter().filter(|arg| !arg.is_long).map(|arg| (arg.shown(), arg.help)).collect();
        format!("{}\n\n{}\n\nArguments:\n{}\nOptions:\n{}", self.about, self.usage(program, &[]), table(&alone), table(&lines))
    }

    pub fn try_get_matches_from(self, words: &'a [String]) -> Result<ArgMatches<'a>, Error> {
        let program = words.first().map_or(self.name, |path| path.rsplit('/').next().unwrap_or(path));
        let mut given: Vec<(&str, &str)> = Vec::new();
        let refuse = |what: String, usage: Option<String>| {
            let usage = usage.map_or(String::new(), |usage| format!("\n{usage}\n"));
            Error { text: format!("error: {what}\n{usage}\nFor more information, try '--help'.\n"), is_refusal: true }
        };
        let (mut rest, mut is_behind) = (words.iter().skip(1).peekable(), false);
        while let Some(word) = rest.next() {
            let is_option = !is_behind && word.len() > 1 && word.starts_with('-');
            if is_option && word == "--" {
                is_behind = true;
                continue;
            }
            if is_option && (word == "--help" || word.starts_with("-h")) {
                return Err(Error { text: self.help(program), is_refusal: false });
            }
            if is_option && (word == "--version" || word.starts_with("-V")) {
                return Err(Error { text: format!("{} {}\n", self.name, self.version), is_refusal: false });
            }
            let (name, value) = match word.split_once('=') {
                Some((name, value)) if is_option => (name, Some(value)),
                _ => (word.as_str(), None),
            };
            let known = self.args.iter().find(|arg| match is_option {
                true => arg.is_long && name.strip_prefix("--") == Some(arg.name),
                false => !arg.is_long && !given.iter().any(|(name, _)| *name == arg.name),
            });
            let refused = || {
                let tip = if is_option { format!("\n\n  tip: to pass '{name}' as a value, use '-- {name}'") } else { String::new() };
                refuse(format!("unexpected argument '{name}' found{tip}"), Some(self.usage(program, if is_option { &given } else { &[] })))
            };
            let arg = known.ok_or_else(refused)?;
            if given.iter().any(|(name, _)| *name == arg.name) {
                return Err(refuse(format!("the argument '{}' cannot be used multiple times", arg.shown()), Some(self.usage(program, &[]))));
            }
            let value = match (arg.is_long, arg.action, value) {
                (false, ..) => word,
                (_, ArgAction::SetTrue, None) => "",
                (_, ArgAction::SetTrue, Some(value)) => {
                    given.push((arg.name, ""));
                    return Err(refuse(format!("unexpected value '{value}' for '{name}' found; no more were expected"), Some(self.usage(program, &given))));
                }
                (_, ArgAction::Set, Some(value)) => value,
                (_, ArgAction::Set, None) => match rest.next_if(|next| *next == "-" || !next.starts_with('-')) {
                    Some(value) => value,
                    None => return Err(refuse(format!("a value is required for '{}' but none was supplied", arg.shown()), None)),
                },
            };
            given.push((arg.name, value));
        }
        let missing = |arg: &&Arg<'_>| arg.is_required && !given.iter().any(|(name, _)| *name == arg.name);
        let missing: String = self.args.iter().filter(missing).map(|arg| format!("\n  {}", arg.shown())).collect();
        if !missing.is_empty() {
            let shown = if given.is_empty() { vec![("", "")] } else { given };
            return Err(refuse(format!("the following required arguments were not provided:{missing}"), Some(self.usage(program, &shown))));
        }
        Ok(ArgMatches { given })
    }
}
