//! The command line.

/// How the program is called.
pub const USAGE: &str = "\
compare [--count N] [--seed S] [--threads T] [--table]    compares the proved library and the second program on N plans,
                                                          on N inputs for the readers and writers of sheets and attributes,
                                                          on 10 N texts in names, on 2 N times three sets to be written so,
                                                          on 5 N status texts beside sheets, and on N slot plans;
        [--first plans|inputs|names|status|slots]         begins with those, which matters where a difference is expected
compare [--count N] [--seed S] --stream FILE              writes the texts of N plans to FILE";

/// What is compared, one after the other.
#[derive(Clone, Copy, Debug, PartialEq, Eq)]
pub enum Part {
    Plans,
    Inputs,
    Names,
    Status,
    Slots,
}

impl Part {
    /// All of them, by their names on the command line.
    pub const ALL: [(&str, Part); 5] = [
        ("plans", Part::Plans),
        ("inputs", Part::Inputs),
        ("names", Part::Names),
        ("status", Part::Status),
        ("slots", Part::Slots),
    ];
}

/// What the command line asks for.
#[derive(Debug, PartialEq, Eq)]
pub struct Arguments {
    /// How many plans, how many inputs, the names and status texts of how many seeds, and how many slot plans.
    pub count: u64,
    /// The seed of the first of each; each next has the next.
    pub seed: u64,
    /// How many threads share them.
    pub threads: u64,
    /// What is compared first; the others follow.
    pub first: Part,
    /// Whether every branch is printed.
    pub table: bool,
    /// Where the texts are written, instead of comparing.
    pub stream: Option<String>,
}

/// Reads the command line, or says what is wrong with it.
pub fn read(mut words: impl Iterator<Item = String>) -> Result<Arguments, String> {
    let mut arguments =
        Arguments { count: 20_000, seed: 1, threads: 2, first: Part::Plans, table: false, stream: None };
    while let Some(word) = words.next() {
        match word.as_str() {
            "--count" => arguments.count = number(&word, words.next())?,
            "--seed" => arguments.seed = number(&word, words.next())?,
            "--threads" => arguments.threads = number(&word, words.next())?.max(1),
            "--first" => arguments.first = part(words.next())?,
            "--table" => arguments.table = true,
            "--stream" => arguments.stream = Some(words.next().ok_or("--stream needs a file's name")?),
            _ => return Err(format!("{word} is not understood")),
        }
    }
    Ok(arguments)
}

fn number(word: &str, value: Option<String>) -> Result<u64, String> {
    let value = value.ok_or(format!("{word} needs a number"))?;
    value.parse().map_err(|_| format!("{word} needs a number, and {value} is none"))
}

fn part(value: Option<String>) -> Result<Part, String> {
    let value = value.ok_or("--first needs plans, inputs, names, status or slots")?;
    let found = Part::ALL.into_iter().find(|(name, _)| *name == value);
    found.map(|(_, part)| part).ok_or(format!("--first needs plans, inputs, names, status or slots, and not {value}"))
}

#[cfg(test)]
mod tests {
    use super::*;

    fn read_words(words: &str) -> Result<Arguments, String> {
        read(words.split_whitespace().map(str::to_string))
    }

    #[test]
    fn numbers_are_read() {
        let arguments = read_words("--seed 7 --count 3 --table --first status").unwrap();
        assert_eq!((arguments.seed, arguments.count, arguments.table), (7, 3, true));
        assert_eq!(arguments.first, Part::Status);
        assert_eq!(read_words("--first slots").unwrap().first, Part::Slots);
        assert_eq!(read_words("").unwrap().first, Part::Plans);
    }

    #[test]
    fn what_is_wrong_is_told() {
        assert_eq!(read_words("--count many").unwrap_err(), "--count needs a number, and many is none");
        assert_eq!(read_words("--quick").unwrap_err(), "--quick is not understood");
        assert_eq!(
            read_words("--first last").unwrap_err(),
            "--first needs plans, inputs, names, status or slots, and not last"
        );
        assert_eq!(read_words("--stream").unwrap_err(), "--stream needs a file's name");
    }
}
