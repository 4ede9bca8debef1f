//! The command line: options, which may stand anywhere before `--`, and arguments.

use super::{help, Command, COMMANDS};
use crate::fault::Fault;
use std::borrow::Cow;
use std::ffi::{OsStr, OsString};
use std::os::unix::ffi::OsStrExt;

/// What a command line asks for.
pub enum Asked {
    Help(Option<&'static Command>),
    Version,
    Run(&'static Command, Arguments),
}

/// The arguments of a command, as many as it takes, and its options.
#[derive(Default)]
pub struct Arguments {
    given: Vec<OsString>,
    options: Vec<(&'static str, OsString)>,
}

/// The options, and whether each is followed by the name of a file.
const OPTIONS: [(&str, bool); 6] = [
    ("--help", false),
    ("--version", false),
    ("--svg", true),
    ("--dot", true),
    ("--json", false),
    ("--numbers", false),
];

impl Arguments {
    /// The argument at this place, from 0, as the path of a file.
    pub fn path(&self, place: usize) -> &OsStr {
        let given = self.given.get(place);
        given.map_or(OsStr::new(""), OsString::as_os_str)
    }

    /// The argument at this place as a name of the file. What is no text is no such
    /// name, so nothing is lost where it is replaced.
    pub fn name(&self, place: usize) -> Cow<'_, str> {
        self.path(place).to_string_lossy()
    }

    /// All arguments.
    pub fn paths(&self) -> &[OsString] {
        &self.given
    }

    pub fn has(&self, option: &str) -> bool {
        self.value(option).is_some()
    }

    /// The value of an option that was given; empty if it takes none.
    pub fn value(&self, option: &str) -> Option<&OsStr> {
        let mut given = self.options.iter().filter(|(name, _)| *name == option);
        given.next().map(|(_, value)| value.as_os_str())
    }
}

/// What the words after the program's name ask for.
pub fn parse(line: impl Iterator<Item = OsString>) -> Result<Asked, Fault> {
    let line: Vec<OsString> = line.collect();
    // Whatever is wrong, the usage is that of the command that was meant.
    let meant = line.iter().find(|word| !is_option(word));
    let meant = meant.and_then(|word| known(word));
    asked(line).map_err(|wrong| help::misused(meant, &wrong))
}

/// The same; what is wrong is one line.
fn asked(line: Vec<OsString>) -> Result<Asked, String> {
    let mut arguments = split(line.into_iter())?;
    if arguments.has("--version") {
        return Ok(Asked::Version);
    }
    let has_help = arguments.has("--help") || arguments.path(0) == "help";
    if arguments.path(0) == "help" {
        arguments.given.remove(0);
    }
    if arguments.given.is_empty() {
        return match has_help {
            true => Ok(Asked::Help(None)),
            false => Err("which command?".to_string()),
        };
    }
    let name = arguments.given.remove(0);
    let command = known(&name).ok_or_else(|| unknown_command(&name))?;
    if has_help {
        return Ok(Asked::Help(Some(command)));
    }
    fits(command, &arguments)?;
    Ok(Asked::Run(command, arguments))
}

fn known(name: &OsStr) -> Option<&'static Command> {
    let mut commands = COMMANDS.iter().copied();
    commands.find(|command| name == command.name)
}

fn unknown_command(name: &OsStr) -> String {
    let names = COMMANDS.iter().map(|command| command.name);
    help::unknown("no command", &name.to_string_lossy(), "", names)
}

/// Whether the command takes so many arguments, and these options.
fn fits(command: &Command, arguments: &Arguments) -> Result<(), String> {
    let name = command.name;
    let mut options = arguments.options.iter().map(|(option, _)| option);
    if let Some(option) = options.find(|option| !command.options.contains(option)) {
        return Err(format!("`{name}` has no option `{option}`"));
    }
    let given = arguments.given.len();
    if command.counts.contains(&given) {
        return Ok(());
    }
    let takes = match command.counts.start() {
        1 => "1 argument".to_string(),
        least => format!("{least} arguments"),
    };
    let more = match command.counts.end() {
        &usize::MAX => " or more",
        _ => "",
    };
    Err(format!("`{name}` takes {takes}{more}, not {given}"))
}

/// Options and arguments told apart.
fn split(mut line: impl Iterator<Item = OsString>) -> Result<Arguments, String> {
    let mut arguments = Arguments::default();
    while let Some(word) = line.next() {
        if word == "--" {
            arguments.given.extend(line);
            break;
        }
        if !is_option(&word) {
            arguments.given.push(word);
            continue;
        }
        let (name, value) = option(&word, &mut line)?;
        if arguments.has(name) {
            return Err(format!("`{name}` is given twice"));
        }
        arguments.options.push((name, value));
    }
    Ok(arguments)
}

/// Whether the word is none of the arguments; `-` is standard input.
fn is_option(word: &OsStr) -> bool {
    word != "-" && word.as_bytes().starts_with(b"-")
}

/// The option of this word. Its value stands in the same word, after `=`, or is the
/// next one.
fn option(
    word: &OsStr,
    line: &mut impl Iterator<Item = OsString>,
) -> Result<(&'static str, OsString), String> {
    let mut halves = word.as_bytes().splitn(2, |&byte| byte == b'=');
    let name = String::from_utf8_lossy(halves.next().unwrap_or_default());
    let attached = halves
        .next()
        .map(|value| OsStr::from_bytes(value).to_owned());
    let name = match &*name {
        "-h" => "--help",
        "-V" => "--version",
        name => name,
    };
    let Some(&(name, takes)) = OPTIONS.iter().find(|(known, _)| *known == name) else {
        let names = OPTIONS.iter().map(|(known, _)| *known);
        return Err(help::unknown("no option", name, "", names));
    };
    if !takes {
        return match attached {
            None => Ok((name, OsString::new())),
            Some(_) => Err(format!("`{name}` takes no value")),
        };
    }
    let next = || line.next().filter(|next| !is_option(next) && next != "-");
    let value = attached.or_else(next).filter(|value| !value.is_empty());
    let missing = || format!("`{name}` needs the name of a file");
    value.map(|value| (name, value)).ok_or_else(missing)
}
