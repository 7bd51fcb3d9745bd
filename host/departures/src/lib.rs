//! Named departures: where another program is known to do something else than the proved library does.
//!
//! Each is a switch of a model. With all switches off the model is the library, with all on it is the other program, so that a difference between
//! the two is explained exactly by the switches that it takes.

#![deny(missing_docs)]

/// Declares the departures of one program from one list: the enum `Departure`, the array `ALL`, their names, and `Switches`, which of them are on.
///
/// ```
/// departures::departures! {
///     /// It reads a tab as a space.
///     TabIsSpace "tab-is-space",
///     /// It reads no empty text.
///     NothingRefused "nothing-refused",
/// }
///
/// let known = Switches::EVERY;
/// assert_eq!(ALL.map(Departure::name), ["tab-is-space", "nothing-refused"]);
/// assert!(known.on(Departure::TabIsSpace) && !Switches::NONE.on(Departure::TabIsSpace));
///
/// // A difference that the second alone explains.
/// let explanation = known.fewest(|switches| switches.on(Departure::NothingRefused));
/// assert!(explanation.departures().eq([Departure::NothingRefused]));
/// assert_eq!(known.without_named("tab-is-space"), Some(explanation));
/// assert_eq!(known.without_named("tabs"), None);
/// assert_eq!(Switches::all_but(&["tab-is-space".into(), "nothing-refused".into()]), Some(Switches::NONE));
/// ```
#[macro_export]
macro_rules! departures {
    ($($(#[$what:meta])* $departure:ident $name:literal,)*) => {
        /// One departure.
        #[derive(Clone, Copy, Debug, PartialEq, Eq)]
        #[repr(u32)]
        pub enum Departure {
            $($(#[$what])* $departure,)*
        }

        /// Every departure, in the order in which they are declared.
        pub const ALL: [Departure; [$($name),*].len()] = [$(Departure::$departure),*];

        impl Departure {
            /// The departure's name, as the documents have it.
            pub fn name(self) -> &'static str {
                match self {
                    $(Departure::$departure => $name,)*
                }
            }
        }

        /// Which departures are switched on.
        #[derive(Clone, Copy, Debug, PartialEq, Eq)]
        pub struct Switches(u32);

        impl Switches {
            /// None: what the library does.
            pub const NONE: Switches = Switches(0);
            /// All: what the other program does.
            pub const EVERY: Switches = Switches((1 << ALL.len()) - 1);

            /// Whether the departure is switched on.
            pub fn on(self, departure: Departure) -> bool {
                self.0 >> departure as u32 & 1 == 1
            }

            /// The same with one departure switched off.
            pub fn without(self, departure: Departure) -> Switches {
                Switches(self.0 & !(1 << departure as u32))
            }

            /// The same with the named departure switched off, or nothing where none has that name.
            pub fn without_named(self, name: &str) -> Option<Switches> {
                ALL.iter().find(|departure| departure.name() == name).map(|&departure| self.without(departure))
            }

            /// All but the named ones, or nothing where one of the names is none.
            pub fn all_but(names: &[String]) -> Option<Switches> {
                names.iter().try_fold(Switches::EVERY, |kept, name| kept.without_named(name))
            }

            /// The fewest of these switches, in the sense that none can be spared, that explain something. All of these have to.
            pub fn fewest(self, explain: impl Fn(Switches) -> bool) -> Switches {
                ALL.into_iter().fold(self, |kept, departure| {
                    let fewer = kept.without(departure);
                    if explain(fewer) {
                        fewer
                    } else {
                        kept
                    }
                })
            }

            /// The departures that are switched on.
            pub fn departures(self) -> impl Iterator<Item = Departure> {
                ALL.into_iter().filter(move |&departure| self.on(departure))
            }
        }
    };
}

/// What a comparison is told on its command line: `[--count N] [--seed N] [--verbose] [--without DEPARTURE]`.
#[derive(Debug, PartialEq, Eq)]
pub struct Options {
    /// How many random inputs.
    pub count: u64,
    /// The seed that they are made from.
    pub seed: u64,
    /// Whether every difference is named.
    pub verbose: bool,
    /// The departures that are taken away, so that the run has to fail.
    pub without: Vec<String>,
}

impl Options {
    /// Reads the words, of which nothing but these options is left; `count` where none is given. Nothing where a word is not understood.
    ///
    /// ```
    /// use departures::Options;
    ///
    /// let words = |words: &str| words.split_whitespace().map(str::to_owned).collect::<Vec<_>>().into_iter();
    /// let options = Options::read(words("--seed 7 --without tabs --verbose"), 1000).unwrap();
    /// assert_eq!(options, Options { count: 1000, seed: 7, verbose: true, without: vec!["tabs".into()] });
    /// assert_eq!(Options::read(words("--count"), 1000), None);
    /// assert_eq!(Options::read(words("--quick"), 1000), None);
    /// ```
    pub fn read(mut words: impl Iterator<Item = String>, count: u64) -> Option<Options> {
        let mut options = Options { count, seed: 1, verbose: false, without: Vec::new() };
        while let Some(word) = words.next() {
            match word.as_str() {
                "--count" => options.count = words.next()?.parse().ok()?,
                "--seed" => options.seed = words.next()?.parse().ok()?,
                "--verbose" => options.verbose = true,
                "--without" => options.without.push(words.next()?),
                _ => return None,
            }
        }
        Some(options)
    }
}

#[cfg(test)]
mod tests {
    crate::departures! {
        One "one",
        Other "other",
        Third "third",
    }

    #[test]
    fn every_departure_stands_at_its_place() {
        for (place, departure) in ALL.into_iter().enumerate() {
            assert_eq!(departure as usize, place, "{}", departure.name());
        }
        assert!(Switches::EVERY.departures().eq(ALL));
        assert_eq!(Switches::NONE.departures().count(), 0);
    }

    #[test]
    fn what_can_be_spared_is_left_out() {
        let known = Switches::EVERY;
        let of_two = |switches: Switches| switches.on(Departure::One) && switches.on(Departure::Third);
        assert_eq!(Some(known.fewest(of_two)), Switches::all_but(&["other".into()]));
        let either = |switches: Switches| switches.on(Departure::One) || switches.on(Departure::Other);
        assert!(known.fewest(either).departures().eq([Departure::Other]));
        assert_eq!(known.fewest(|_| true), Switches::NONE);
    }
}
