//! The words of a command line, parted into options and the rest. No command's own rules stand here: each names its options.

use crate::status::Failure;
use std::ffi::{OsStr, OsString};
use std::os::unix::ffi::{OsStrExt, OsStringExt};

/// An option that a command takes.
#[derive(Clone, Copy, Debug)]
pub struct Opt {
    /// `--name`
    pub long: &'static str,
    /// `-n`, or nothing.
    pub short: Option<u8>,
    /// What stands behind it, for the usage; nothing where it stands alone.
    pub value: Option<&'static str>,
    /// For `--help`.
    pub help: &'static str,
}

/// What was given.
#[derive(Debug, Default)]
pub struct Given {
    options: Vec<(&'static str, OsString)>,
    /// What is no option, in its order.
    pub words: Vec<OsString>,
}

impl Given {
    /// Parts the words by the options that there are. `--` ends the options; `-` alone is a word: standard input.
    pub fn parse(words: impl IntoIterator<Item = OsString>, options: &[Opt]) -> Result<Given, Failure> {
        let mut given = Given::default();
        let mut words = words.into_iter();
        while let Some(word) = words.next() {
            match word.as_bytes() {
                b"--" => given.words.extend(words.by_ref()),
                [b'-', b'-', rest @ ..] => {
                    let mut halves = rest.splitn(2, |&b| b == b'=');
                    let name = halves.next().unwrap_or_default();
                    let option = options.iter().find(|o| &o.long.as_bytes()[2..] == name);
                    given.take(option.ok_or_else(|| unknown(&word))?, halves.next(), &mut words)?;
                }
                [b'-', short, rest @ ..] => {
                    let option = options.iter().find(|o| o.short == Some(*short)).ok_or_else(|| unknown(&word))?;
                    given.take(option, (!rest.is_empty()).then_some(rest), &mut words)?;
                }
                _ => given.words.push(word),
            }
        }
        Ok(given)
    }

    fn take(
        &mut self,
        option: &Opt,
        attached: Option<&[u8]>,
        words: &mut impl Iterator<Item = OsString>,
    ) -> Result<(), Failure> {
        let value = match (option.value, attached) {
            (None, None) => OsString::new(),
            (None, Some(_)) => return Err(Failure::Usage(format!("{} takes no value", option.long))),
            (Some(_), Some(value)) => OsString::from_vec(value.to_vec()),
            (Some(what), None) => {
                words.next().ok_or_else(|| Failure::Usage(format!("{} needs {what} behind it", option.long)))?
            }
        };
        if self.value(option.long).is_some() {
            return Err(Failure::Usage(format!("{} stands twice", option.long)));
        }
        self.options.push((option.long, value));
        Ok(())
    }

    /// Whether an option was given.
    pub fn has(&self, long: &str) -> bool {
        self.value(long).is_some()
    }

    /// What stands behind an option.
    pub fn value(&self, long: &str) -> Option<&OsStr> {
        self.options.iter().find(|(name, _)| *name == long).map(|(_, value)| value.as_os_str())
    }

    /// The same as text.
    pub fn text(&self, long: &str) -> Result<Option<&str>, Failure> {
        let wrong = || Failure::Usage(format!("{long}: what stands behind it is no text"));
        self.value(long).map(|value| value.to_str().ok_or_else(wrong)).transpose()
    }

    /// A count behind an option, from 1.
    pub fn count(&self, long: &str) -> Result<Option<u64>, Failure> {
        let wrong = |text| Failure::Usage(format!("{long} {text}: a number from 1 on was due"));
        self.text(long)?.map(|text| text.parse().ok().filter(|&n| n > 0).ok_or_else(|| wrong(text))).transpose()
    }

    /// A size in bytes behind an option: digits, and K, M or G for 1,024 of what is before.
    pub fn size(&self, long: &str) -> Result<Option<u64>, Failure> {
        let Some(text) = self.text(long)? else { return Ok(None) };
        let digits = text.trim_end_matches(['K', 'M', 'G']);
        let unit = match &text[digits.len()..] {
            "" => Some(1),
            "K" => Some(1 << 10),
            "M" => Some(1 << 20),
            "G" => Some(1 << 30),
            _ => None,
        };
        let size = unit.and_then(|unit| digits.parse::<u64>().ok()?.checked_mul(unit)).filter(|&n| n > 0);
        size.map(Some).ok_or_else(|| Failure::Usage(format!("{long} {text}: a size such as 64K, 16M or 1G was due")))
    }
}

fn unknown(word: &OsStr) -> Failure {
    Failure::Usage(format!("no such option: {}", word.to_string_lossy()))
}

#[cfg(test)]
mod tests {
    use super::*;

    const OPTIONS: &[Opt] = &[
        Opt { long: "--out", short: Some(b'o'), value: Some("FILE"), help: "" },
        Opt { long: "--all", short: None, value: None, help: "" },
    ];

    fn parse(words: &[&str]) -> Result<Given, Failure> {
        Given::parse(words.iter().map(OsString::from), OPTIONS)
    }

    #[test]
    fn options_stand_anywhere_and_in_every_form() {
        for words in
            [&["a", "--out", "f", "-"][..], &["a", "--out=f", "-"], &["-of", "a", "-"], &["-o", "f", "--", "a", "-"]]
        {
            let given = parse(words).unwrap();
            assert_eq!(
                (given.words.as_slice(), given.value("--out")),
                (&["a".into(), "-".into()][..], Some(OsStr::new("f")))
            );
            assert!(!given.has("--all"));
        }
        assert_eq!(parse(&["--", "--all"]).unwrap().words, ["--all"]);
    }

    #[test]
    fn what_is_no_option_is_refused() {
        for words in [&["--ou"][..], &["-x"], &["--out"], &["--all=1"], &["--all", "--all"]] {
            assert!(matches!(parse(words), Err(Failure::Usage(_))), "{words:?}");
        }
    }

    #[test]
    fn sizes() {
        let size = |text: &str| parse(&["-o", text]).unwrap().size("--out");
        assert_eq!((size("16M"), size("7")), (Ok(Some(16 << 20)), Ok(Some(7))));
        for wrong in ["", "M", "1MM", "0", "1T", "-1", "99999999999G"] {
            assert!(size(wrong).is_err(), "{wrong}");
        }
    }
}
