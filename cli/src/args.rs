//! The arguments: a command, a file, and options that may stand anywhere.

use std::collections::BTreeMap;

/// A command line that cannot be understood, in words. The status is 2.
pub struct Usage(pub String);

/// What stands on the command line.
pub struct Args {
    /// The command; none where nothing but options stands there.
    pub command: Option<String>,
    /// The files; `-` is standard input.
    pub files: Vec<String>,
    options: BTreeMap<&'static str, String>,
}

/// The options with a value.
const VALUED: [&str; 20] = [
    "--section",
    "--kind",
    "--word",
    "--address",
    "--base",
    "--load-base",
    "--machine",
    "--relocations",
    "--record",
    "--at",
    "--register",
    "--place",
    "--packed",
    "--first",
    "--fault",
    "--pc",
    "--stack",
    "--functions",
    "--build-id",
    "--html",
];
/// Those without one.
const PLAIN: [&str; 6] = ["--operations", "--readelf", "--linked", "--json", "--help", "--version"];
/// Their short forms.
const SHORT: [(&str, &str); 2] = [("-h", "--help"), ("-V", "--version")];

/// A number, decimal or after 0x hexadecimal.
pub fn number(text: &str) -> Option<u64> {
    match text.strip_prefix("0x").or_else(|| text.strip_prefix("0X")) {
        // The standard library takes a sign here.
        Some(digits) if !digits.starts_with('+') => u64::from_str_radix(digits, 16).ok(),
        None if !text.starts_with('+') => text.parse().ok(),
        _ => None,
    }
}

impl Args {
    /// Takes the words behind the program's name apart.
    ///
    /// # Errors
    /// An unknown option, a missing value, a word too many.
    pub fn new(words: impl Iterator<Item = String>) -> Result<Args, Usage> {
        let mut args = Args { command: None, files: Vec::new(), options: BTreeMap::new() };
        let mut words = words;
        let mut only_words = false;
        while let Some(word) = words.next() {
            if word == "--" && !only_words {
                only_words = true;
            } else if only_words || word == "-" || !word.starts_with('-') {
                args.word(word);
            } else {
                args.option(&word, &mut words)?;
            }
        }
        Ok(args)
    }

    fn word(&mut self, word: String) {
        match self.command {
            None => self.command = Some(word),
            Some(_) => self.files.push(word),
        }
    }

    /// The first file.
    pub fn file(&self) -> Option<&str> {
        self.files.first().map(String::as_str)
    }

    /// The same with one file.
    pub fn of_file(&self, file: &str) -> Args {
        Args { command: self.command.clone(), files: vec![file.to_string()], options: self.options.clone() }
    }

    fn option(&mut self, word: &str, words: &mut impl Iterator<Item = String>) -> Result<(), Usage> {
        let (name, value) = match word.split_once('=') {
            Some((name, value)) => (name, Some(value.to_string())),
            None => (SHORT.iter().find(|(short, _)| *short == word).map_or(word, |(_, long)| *long), None),
        };
        if let Some(known) = PLAIN.iter().find(|known| **known == name) {
            if value.is_some() {
                return Err(Usage(format!("{name} takes no value")));
            }
            self.options.insert(known, String::new());
            return Ok(());
        }
        let Some(known) = VALUED.iter().find(|known| **known == name) else {
            return Err(Usage(format!("there is no option {name}")));
        };
        let value = value.or_else(|| words.next()).ok_or_else(|| Usage(format!("a value is missing behind {name}")))?;
        match self.options.insert(known, value) {
            None => Ok(()),
            Some(_) => Err(Usage(format!("{name} stands there twice"))),
        }
    }

    /// Whether an option stands there.
    pub fn has(&self, name: &str) -> bool {
        self.options.contains_key(name)
    }

    /// The value of an option.
    pub fn value(&self, name: &str) -> Option<&str> {
        self.options.get(name).map(String::as_str)
    }

    /// The number behind an option.
    ///
    /// # Errors
    /// What stands there is no number of 64 bits.
    pub fn number(&self, name: &str) -> Result<Option<u64>, Usage> {
        let Some(text) = self.value(name) else { return Ok(None) };
        match number(text) {
            Some(n) => Ok(Some(n)),
            None => Err(Usage(format!("{name}: `{text}` is no number below 2^64, decimal or after 0x hexadecimal"))),
        }
    }

    /// Refuses options that the command does not have.
    ///
    /// # Errors
    /// The first of them.
    pub fn only(&self, command: &str, allowed: &[&str]) -> Result<(), Usage> {
        match self.options.keys().find(|name| !allowed.contains(name)) {
            Some(name) => Err(Usage(format!("{command} has no option {name}"))),
            None => Ok(()),
        }
    }
}
