//! What is counted over a run, and the summary at its end.

use crate::comparison::{Asked, Fault, Source, Verdict};
use crate::model::ALL;
use std::fmt;

/// The counts of a run.
#[derive(Default)]
pub struct Tally {
    by_source: [Counts; Source::ALL.len()],
    by_departure: [u64; ALL.len()],
}

/// The verdicts on the texts of one source.
#[derive(Clone, Copy, Default)]
struct Counts {
    read_alike: u64,
    refused_alike: u64,
    explained: u64,
    unexplained: u64,
}

impl Counts {
    fn texts(&self) -> u64 {
        self.read_alike + self.refused_alike + self.explained + self.unexplained
    }
}

impl Tally {
    /// Counts a text that was compared.
    pub fn add(&mut self, asked: &Asked, verdict: &Result<Verdict, Fault>) {
        let counts = &mut self.by_source[asked.source as usize];
        match verdict {
            Ok(Verdict::ReadAlike) => counts.read_alike += 1,
            Ok(Verdict::RefusedAlike) => counts.refused_alike += 1,
            Ok(Verdict::Explained(switches)) => {
                counts.explained += 1;
                switches.departures().for_each(|departure| self.by_departure[departure as usize] += 1);
            }
            Err(_) => counts.unexplained += 1,
        }
    }

    /// How many texts are not explained.
    pub fn unexplained(&self) -> u64 {
        self.by_source.iter().map(|counts| counts.unexplained).sum()
    }

    /// The departures that were never seen: one that is claimed has to show.
    pub fn never_seen(&self) -> impl Iterator<Item = &'static str> + '_ {
        ALL.iter().zip(&self.by_departure).filter(|(_, &count)| count == 0).map(|(departure, _)| departure.name())
    }
}

impl fmt::Display for Tally {
    fn fmt(&self, f: &mut fmt::Formatter<'_>) -> fmt::Result {
        writeln!(
            f,
            "{:<28}{:>10}{:>12}{:>15}{:>11}{:>13}",
            "texts", "", "read alike", "refused alike", "explained", "unexplained"
        )?;
        for (source, counts) in Source::ALL.iter().zip(&self.by_source) {
            let Counts { read_alike, refused_alike, explained, unexplained } = counts;
            writeln!(
                f,
                "{:<28}{:>10}{read_alike:>12}{refused_alike:>15}{explained:>11}{unexplained:>13}",
                source.name(),
                counts.texts()
            )?;
        }
        writeln!(f, "\ndepartures of libcap (docs/LIBCAP.md), with the texts that they help to explain")?;
        for (departure, count) in ALL.iter().zip(&self.by_departure) {
            writeln!(f, "{count:>8}  {}", departure.name())?;
        }
        Ok(())
    }
}
