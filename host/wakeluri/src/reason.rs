//! Why a call gave no answer, as a case in words with named numbers.

use crate::Refusal;
use crate::refusal::Call;
use alloc::vec::Vec;
use core::fmt;

/// A number of a refusal, as a case has it.
trait Told: Copy {
    fn of(number: u64) -> Self;
    fn told(self) -> Option<u64>;
}

impl Told for u64 {
    fn of(number: u64) -> Self {
        number
    }

    fn told(self) -> Option<u64> {
        Some(self)
    }
}

/// A record counts from 1, and 0 says that none was counted.
impl Told for Option<u64> {
    fn of(number: u64) -> Self {
        (number != 0).then_some(number)
    }

    fn told(self) -> Option<u64> {
        self
    }
}

/// A byte. No refusal names a greater number as one.
impl Told for u8 {
    fn of(number: u64) -> Self {
        u8::try_from(number).unwrap_or(u8::MAX)
    }

    fn told(self) -> Option<u64> {
        Some(u64::from(self))
    }
}

/// The table of refusals: the number of each case, its words, and its numbers in their order.
macro_rules! reasons {
    ($($number:literal $case:ident { $($field:ident: $type:ty),* } $words:literal;)*) => {
        /// Why a call gave no answer: a case for each refusal, with its numbers by their names.
        ///
        /// [`Refusal::reason`] gives it. Cases may come, so a `match` needs an arm for the others:
        ///
        /// ```
        /// use wakeluri::Reason;
        /// let fasta = b">s\nACGT\nAC\n";
        /// let table = wakeluri::index(fasta)?;
        /// let refusal = table.read_exact(fasta, table.find(b"s")?, 5..=7).unwrap_err();
        /// match refusal.reason() {
        ///     Reason::PastLength { length } => assert_eq!(length, 6),
        ///     other => panic!("{other}"),
        /// }
        /// # Ok::<(), wakeluri::Refusal>(())
        /// ```
        ///
        /// The cases have the names that the proved code has for them (crates/refusal). An offset is that of a byte in the file from 0, a
        /// place that of a byte in what was lent; lines, records and bases count from 1, rows from 0.
        #[derive(Clone, Copy, Debug, Eq, PartialEq)]
        #[non_exhaustive]
        #[allow(missing_docs)]
        pub enum Reason {
            $(#[doc = concat!(stringify!($number), ": ", $words, ".")] $case { $($field: $type),* },)*
            /// A number that this version has no words for.
            Other { number: u64, first: u64, second: u64 },
        }

        impl Reason {
            /// The greatest number that has words.
            pub const LAST: u64 = { let mut last = 0; $(if $number > last { last = $number; })* last };

            /// The case of a number, its numbers being in the order of the case.
            fn of_numbers(number: u64, first: u64, second: u64) -> Self {
                match number {
                    $($number => {
                        #[allow(unused_mut, unused_variables)]
                        let mut told = [first, second].into_iter();
                        Self::$case { $($field: Told::of(told.next().unwrap_or_default())),* }
                    })*
                    number => Self::Other { number, first, second },
                }
            }

            /// The refusal's number, which stays the same for ever (docs/RULES.md, R2).
            pub fn number(&self) -> u64 {
                match self {
                    $(Self::$case { .. } => $number,)*
                    Self::Other { number, .. } => *number,
                }
            }

            /// The case's own name, as `PastLength`.
            pub fn name(&self) -> &'static str {
                match self {
                    $(Self::$case { .. } => stringify!($case),)*
                    Self::Other { .. } => "Other",
                }
            }

            /// Its numbers by their names, in their order; those that the call did not give are left out.
            ///
            /// ```
            /// let refusal = wakeluri::check(b">s\nACGT\nAC\n", b"s\t6\t3\t4\t6\n").unwrap_err();
            /// assert_eq!(refusal.reason().places(), [("record", 1), ("base", 5)]);
            /// ```
            pub fn places(&self) -> Vec<(&'static str, u64)> {
                match *self {
                    $(Self::$case { $($field),* } => {
                        let told: &[(&'static str, Option<u64>)] = &[$((stringify!($field), $field.told())),*];
                        told.iter().filter_map(|(name, number)| Some((*name, (*number)?))).collect()
                    })*
                    Self::Other { first, second, .. } => [("first", first), ("second", second)].into(),
                }
            }

            /// What it means, in words without its places.
            ///
            /// ```
            /// let refusal = wakeluri::index(b">s\nACGT\n>\nAC\n").unwrap_err();
            /// assert_eq!(refusal.reason().words(), "a definition line has no name after its '>', or in FASTQ its '@'");
            /// ```
            pub fn words(&self) -> &'static str {
                Self::words_of(self.number())
            }

            /// What a number means, in words without its places: what `wakeluri_words` gives in C.
            ///
            /// ```
            /// use wakeluri::Reason;
            /// assert_eq!(Reason::words_of(15), "no record has that name");
            /// assert_eq!(Reason::words_of(0), "there is no refusal");
            /// ```
            pub fn words_of(number: u64) -> &'static str {
                match number {
                    0 => "there is no refusal",
                    $($number => $words,)*
                    _ => "it was refused for a reason that this version has no words for",
                }
            }
        }
    };
}

reasons! {
    1 TooLong {} "an input is longer than 1,099,511,627,776 bytes";
    2 EmptyDefinition { record: Option<u64>, offset: u64 } "a definition line is empty";
    3 NoPrefix { record: Option<u64>, offset: u64 } "a definition line does not begin with '>', or in FASTQ with '@'";
    4 NoName { record: Option<u64>, offset: u64 } "a definition line has no name after its '>', or in FASTQ its '@'";
    5 NoBases { offset: u64 } "a record has no bases in its first line";
    6 LineBases { found: u64, expected: u64 } "a line has another number of bases than its record's lines";
    7 LineWidth { found: u64, expected: u64 } "a line has another number of bytes than its record's lines";
    8 TableFull { rows: u64 } "the table has no free row for a good record";
    9 EmptyIndexLine { line: u64 } "an index line is empty";
    10 FieldAbsent { line: u64, field: u64 } "an index line lacks a field";
    11 NotANumber { line: u64, field: u64 } "a field of an index line is no number of 64 bits";
    12 ZeroField { line: u64, field: u64 } "an index line has 0 for the bases or the bytes in a line";
    13 NameSplit { place: u64 } "a name to write has a tab or a line feed in it";
    14 NoRoom { needed: u64 } "the output is too short";
    15 NameUnknown {} "no record has that name";
    16 BadBounds {} "a bound is 0, or the start is after the end";
    17 PastLength { length: u64 } "the region goes past the record's bases";
    18 NotInFile { base: u64 } "a base would not lie in the file, by the record's numbers";
    19 LineAbsent { record: u64 } "the index has no line for a record";
    20 BytesLeft { records: u64 } "the index goes on after the lines of all records";
    21 NameDiffers { record: u64 } "a record and its index line have different names";
    22 LengthDiffers { record: u64 } "a record has another number of bases than its index line says";
    23 BaseElsewhere { record: u64, base: u64 } "a base is not where its index line says";
    24 NoComplement { place: u64, byte: u8 } "a byte has no complement";
    25 BadRow { row: u64 } "a row is not in the table, its name is not in the bytes, or its lines have no bases";
    26 AlreadyEnded {} "the file has ended already, and takes no more bytes";
    27 ZeroWidth {} "a line can't have 0 bases";
    28 NameUnfit {} "the name is empty or has whitespace in it";
    29 DescriptionUnfit {} "the description is empty, has a line feed in it, or whitespace at an end";
    30 BaseUnfit {} "a base is a line feed, a carriage return or '>', and can't be written";
    31 MalformedExercise { offset: u64 } "the exercise has no good field where one should stand";
    32 UnknownNeededTag { offset: u64 } "the exercise has a field that has to be understood, and isn't known";
    33 UnknownEdition { offset: u64 } "the edition of the exercise is neither 1 nor 2";
    34 NotInWindow { base: u64 } "a base is not in the window";
    35 WindowPastEnd {} "the window goes past the end of the file";
    36 PrimerLength {} "a primer has 1 to 31 letters";
    37 PrimerLetter { place: u64 } "a letter of the primer stands for no bases";
    38 NoPlusLine {} "a record has no '+' line after its bases";
    39 QualityLine { found: u64, expected: u64 } "a quality line does not fit its line of bases";
    40 TooManyRegions {} "a sheet has more than 200 regions";
    41 TooFewStarts {} "the list of starts is shorter than the list of regions";
    42 NoIndexFits { offset: u64, base: u64 } "no index line can lead to a base of a record and to all those before it";
}

impl Reason {
    /// The case of a refusal.
    pub(crate) fn of(refusal: &Refusal) -> Self {
        let Refusal { number, first, second, call } = *refusal;
        match (number, call) {
            // where no record is counted, the offset comes first
            (2..=4, Call::Check) => Self::of_numbers(number, first, second),
            (2..=4, _) => Self::of_numbers(number, 0, first),
            _ => Self::of_numbers(number, first, second),
        }
    }
}

/// Its words, and its numbers: `the region goes past the record's bases (length 6)`.
impl fmt::Display for Reason {
    fn fmt(&self, f: &mut fmt::Formatter<'_>) -> fmt::Result {
        f.write_str(self.words())?;
        for (at, (name, number)) in self.places().into_iter().enumerate() {
            write!(f, "{}{name} {number}", if at == 0 { " (" } else { ", " })?;
        }
        f.write_str(if self.places().is_empty() { "" } else { ")" })
    }
}

impl core::error::Error for Reason {}

/// So that `?` gives it where a function fails with a reason.
///
/// ```
/// use wakeluri::Reason;
/// fn rows(file: &[u8]) -> Result<usize, Reason> {
///     Ok(wakeluri::index(file)?.len())
/// }
/// assert_eq!((rows(b">s\nA\n"), rows(b"A\n")), (Ok(1), Err(Reason::NoPrefix { record: None, offset: 0 })));
/// ```
impl From<Refusal> for Reason {
    fn from(refusal: Refusal) -> Self {
        refusal.reason()
    }
}
