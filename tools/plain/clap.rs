//! The few calls of `clap` that the sources make: a program of subcommands, each with values and without options. The sources let no word
//! that begins with a hyphen come here.

use crate::alloc::{AllocError, Global};
use crate::vec::Vec;
use std::ops::RangeInclusive;

pub mod error {
    /// Why words aren't taken.
    #[derive(Debug, Clone, Copy, PartialEq, Eq)]
    pub enum ErrorKind {
        OutOfMemory,
        Other,
    }

    #[derive(Debug)]
    pub struct Error(pub(super) ErrorKind);

    impl Error {
        pub fn kind(&self) -> ErrorKind {
            self.0
        }
    }
}

use error::{Error, ErrorKind};

impl From<AllocError> for Error {
    fn from(_: AllocError) -> Error {
        Error(ErrorKind::OutOfMemory)
    }
}

/// A value of a subcommand, of one word or as many as the range says.
pub struct Arg<'a> {
    id: &'a str,
    required: bool,
    range: RangeInclusive<usize>,
}

impl<'a> Arg<'a> {
    pub fn new(_: Global, id: &'a str) -> Arg<'a> {
        Arg {
            id,
            required: false,
            range: 1..=1,
        }
    }

    pub fn required(self, required: bool) -> Arg<'a> {
        Arg { required, ..self }
    }

    pub fn num_args(self, range: RangeInclusive<usize>) -> Arg<'a> {
        Arg { range, ..self }
    }
}

/// A program with its subcommands, or one of these with at most one value.
pub struct Command<'a> {
    alloc: Global,
    name: &'a str,
    arg: Option<Arg<'a>>,
    subcommands: Vec<Command<'a>>,
    subcommand_required: bool,
}

impl<'a> Command<'a> {
    pub fn new(alloc: Global, name: &'a str) -> Command<'a> {
        Command {
            alloc,
            name,
            arg: None,
            subcommands: Vec::new(alloc),
            subcommand_required: false,
        }
    }

    pub fn arg(self, arg: Arg<'a>) -> Result<Command<'a>, AllocError> {
        Ok(Command {
            arg: Some(arg),
            ..self
        })
    }

    pub fn subcommand(mut self, subcommand: Command<'a>) -> Result<Command<'a>, AllocError> {
        self.subcommands.push(subcommand)?;
        Ok(self)
    }

    pub fn subcommand_required(self, subcommand_required: bool) -> Command<'a> {
        Command {
            subcommand_required,
            ..self
        }
    }

    pub fn no_binary_name(self, _: bool) -> Command<'a> {
        self
    }

    pub fn disable_help_flag(self, _: bool) -> Command<'a> {
        self
    }

    pub fn disable_help_subcommand(self, _: bool) -> Command<'a> {
        self
    }

    pub fn try_get_matches_from<'m>(self, words: &'m [String]) -> Result<ArgMatches<'m>, Error>
    where
        'a: 'm,
    {
        let Some((first, rest)) = words.split_first() else {
            let matches = ArgMatches::default();
            return if self.subcommand_required {
                Err(Error(ErrorKind::Other))
            } else {
                Ok(matches)
            };
        };
        let named = self.subcommands.iter().find(|it| it.name == first.as_str());
        let values = named.ok_or(Error(ErrorKind::Other))?.values_from(rest)?;
        Ok(ArgMatches {
            subcommand: Some((first.as_str(), Box::new(values))),
            ..ArgMatches::default()
        })
    }

    /// The words after a subcommand's name as its value.
    fn values_from<'m>(&self, words: &'m [String]) -> Result<ArgMatches<'m>, Error>
    where
        'a: 'm,
    {
        let Some(arg) = &self.arg else {
            return if words.is_empty() {
                Ok(ArgMatches::default())
            } else {
                Err(Error(ErrorKind::Other))
            };
        };
        if !arg.range.contains(&words.len()) && (arg.required || !words.is_empty()) {
            return Err(Error(ErrorKind::Other));
        }
        let mut values = Vec::new(self.alloc);
        for word in words {
            values.push(word.as_str()).map_err(AllocError::from)?;
        }
        Ok(ArgMatches {
            subcommand: None,
            value: Some((arg.id, values)),
        })
    }
}

/// What was found in the words.
#[derive(Default)]
pub struct ArgMatches<'a> {
    subcommand: Option<(&'a str, Box<ArgMatches<'a>>)>,
    value: Option<(&'a str, Vec<&'a str>)>,
}

impl<'a> ArgMatches<'a> {
    pub fn subcommand(&self) -> Option<(&str, &ArgMatches<'a>)> {
        self.subcommand
            .as_ref()
            .map(|(name, values)| (*name, &**values))
    }

    pub fn get_strs(&self, id: &str) -> Option<&[&'a str]> {
        let (named, words) = self.value.as_ref()?;
        if *named == id {
            Some(words.as_slice())
        } else {
            None
        }
    }

    pub fn get_str(&self, id: &str) -> Option<&'a str> {
        self.get_strs(id)?.first().copied()
    }
}
