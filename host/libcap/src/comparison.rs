//! A text read by libcap, by the proved library and by the model, and the verdict on it.

use crate::model::{self, Switches};
use libcap::{Libcap, Sets};
use std::ffi::CStr;
use urrezkalu::{read_names, write_names, NamedSets, NamesReading, NamesWriting, LONGEST_NAMES};

/// Where a text comes from.
#[derive(Clone, Copy, Debug, PartialEq, Eq)]
pub enum Source {
    /// It is made as those for the comparison with the second program.
    InNames,
    /// It is made of the forms that libcap takes.
    OfLibcapsForms,
    /// libcap has written it.
    WrittenByLibcap,
    /// The library has written it.
    WrittenByTheLibrary,
}

impl Source {
    /// All of them.
    pub const ALL: [Source; 4] =
        [Source::InNames, Source::OfLibcapsForms, Source::WrittenByLibcap, Source::WrittenByTheLibrary];

    /// In words.
    pub fn name(self) -> &'static str {
        match self {
            Source::InNames => "in names, whole and broken",
            Source::OfLibcapsForms => "of libcap's forms",
            Source::WrittenByLibcap => "written by libcap",
            Source::WrittenByTheLibrary => "written by the library",
        }
    }
}

/// A text to be read.
#[derive(Debug)]
pub struct Asked {
    /// Where it comes from.
    pub source: Source,
    /// The text.
    pub text: Vec<u8>,
    /// The sets that it was written for.
    written_for: Option<Sets>,
}

/// How libcap's reading compares with the library's.
#[derive(Clone, Copy, Debug, PartialEq, Eq)]
pub enum Verdict {
    /// Both read the same sets.
    ReadAlike,
    /// Both refuse it.
    RefusedAlike,
    /// They differ, and these departures say exactly how.
    Explained(Switches),
}

/// What is wrong: the run fails. The readings are those that should be the same.
#[derive(Debug)]
pub struct Fault {
    /// In words.
    pub what: &'static str,
    /// Whose they are.
    pub readings: Vec<(&'static str, Option<Sets>)>,
}

/// libcap, and the departures that may explain a difference.
pub struct Comparison {
    libcap: Libcap,
    known: Switches,
}

impl Comparison {
    /// With these departures known.
    pub fn new(libcap: Libcap, known: Switches) -> Comparison {
        Comparison { libcap, known }
    }

    /// The texts of one seed.
    pub fn asked(&self, seed: u64) -> Vec<Asked> {
        let sets = plans::named_sets(seed);
        let made = |source, text| Asked { source, text, written_for: None };
        let written = |source, text| Asked { source, text, written_for: Some(sets) };
        let mut asked = vec![
            made(Source::InNames, plans::named_text(seed).text),
            made(Source::OfLibcapsForms, plans::libcap_text(seed)),
            written(Source::WrittenByLibcap, self.libcap.write(&sets)),
        ];
        asked.extend(library_writes(&sets).map(|text| written(Source::WrittenByTheLibrary, text)));
        asked
    }

    /// The verdict on a text, or what is wrong.
    pub fn compare(&self, asked: &Asked) -> Result<Verdict, Fault> {
        let text = &asked.text;
        let (libcap, library) = (self.libcap_reads(text), library_reads(text));
        let fault = |what, readings| Err(Fault { what, readings });
        let with_known = model::read(self.known, text);
        if with_known != libcap {
            return fault("what libcap reads is not explained", vec![("libcap", libcap), ("model", with_known)]);
        }
        let with_none = model::read(Switches::NONE, text);
        if with_none != library {
            let readings = vec![("library", library), ("model", with_none)];
            return fault("the model with every switch off is not what the library reads", readings);
        }
        if asked.written_for.is_some() && libcap != asked.written_for {
            return fault(
                "libcap does not read what was written",
                vec![("written", asked.written_for), ("libcap", libcap)],
            );
        }
        Ok(match (library, libcap) {
            (Some(one), Some(other)) if one == other => Verdict::ReadAlike,
            (None, None) => Verdict::RefusedAlike,
            _ => Verdict::Explained(self.known.fewest(|switches| model::read(switches, text) == libcap)),
        })
    }

    // C has no text with a zero byte in it: libcap is lent the whole text and one behind it.
    fn libcap_reads(&self, text: &[u8]) -> Option<Sets> {
        let lent = [text, b"\0"].concat();
        self.libcap.read(CStr::from_bytes_until_nul(&lent).expect("a zero byte was put behind it"))
    }
}

fn library_reads(text: &[u8]) -> Option<Sets> {
    match read_names(text) {
        NamesReading::Means(NamedSets { permitted, inheritable, effective }) => {
            Some([permitted, inheritable, effective])
        }
        NamesReading::Malformed { .. } => None,
    }
}

// Nothing where a set has a bit above 40.
fn library_writes(&[permitted, inheritable, effective]: &Sets) -> Option<Vec<u8>> {
    let mut text = [0; LONGEST_NAMES];
    match write_names(NamedSets { permitted, inheritable, effective }, &mut text) {
        NamesWriting::Written { length } => Some(text[..length].to_vec()),
        NamesWriting::OutOfRange => None,
        NamesWriting::NoRoom => unreachable!("no text is longer"),
    }
}
