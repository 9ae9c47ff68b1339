//! Why a call did not do what was asked.

use core::{error::Error, fmt};

macro_rules! refusals {
    ($($number:literal $name:ident $says:literal;)*) => {
        /// Why a call did not do what was asked.
        ///
        /// Each refusal has a number, which does not change, a name, and a sentence for a person. A later version
        /// may have more of them.
        #[derive(Clone, Copy, Debug, PartialEq, Eq, PartialOrd, Ord, Hash)]
        #[non_exhaustive]
        pub enum Refusal {
            $(#[doc = $says] $name,)*
            /// A number that this crate has no name for, which its library does not give; 255 stands for all that
            /// a byte does not hold.
            Unknown(u8),
        }

        impl Refusal {
            /// Every refusal that has a name, by rising number.
            pub fn all() -> impl DoubleEndedIterator<Item = Refusal> + ExactSizeIterator + Clone {
                [$(Refusal::$name),*].into_iter()
            }

            /// The refusal with a number, if it has a name.
            pub const fn from_number(number: u8) -> Option<Refusal> {
                match number {
                    $($number => Some(Refusal::$name),)*
                    _ => None,
                }
            }

            /// The refusal's number.
            pub const fn number(self) -> u8 {
                match self {
                    $(Refusal::$name => $number,)*
                    Refusal::Unknown(number) => number,
                }
            }

            /// The refusal's name.
            pub const fn name(self) -> &'static str {
                match self {
                    $(Refusal::$name => stringify!($name),)*
                    Refusal::Unknown(_) => "Unknown",
                }
            }

            /// What is wrong, in one sentence.
            pub const fn explanation(self) -> &'static str {
                match self {
                    $(Refusal::$name => $says,)*
                    Refusal::Unknown(_) => "The library gives a number that this crate has no name for.",
                }
            }
        }
    };
}

refusals! {
    1 TableUnfit "The table has no bucket or more than 1,048,576, or what was lent is not as long as such a table.";
    2 LengthUnfit "Something else that was lent has the wrong length, a node count is not the diff's, or there is no such cell.";
    3 SlotUnfit "There is no such slot: 0 to 125 can be set, 0 to 127 asked after.";
    4 DiffReserved "The diff has bit 126 set, or says \"cleared\" where nodes were expected.";
    5 LogNotPages "The log's length is no multiple of 4,096.";
    6 LogCut "The log ends inside a record or before its end record.";
    7 NoStart "The log does not begin with a start record.";
    8 TagUnknown "A record begins with a byte that is no record's.";
    9 BucketOutside "The table has no bucket with that number.";
    10 PathCrowded "No bucket: the page's path has hits, and no free visit within the limit.";
    11 PathClosed "No bucket: the page's path has neither a free visit nor a hit.";
    12 WriterNotOpen "The writer has not begun, or has finished.";
    13 NoRoom "The log has no room for this record and its end.";
    14 BucketUnfit "The bucket's tag is not that of the page's own hash, or a clear has no bucket.";
    15 MarkerLength "A growth marker is 16 bytes.";
    16 MarkerMagic "This is no growth marker.";
    17 MarkerOrder "The marker's new count is not above its old one.";
    18 NothingPending "The counts and the file's length fit no step of a growth.";
    19 WouldShrink "The new table would be smaller.";
    20 PaddingUsed "A byte after the last tag is not zero.";
    21 LabelTwice "Two buckets hold a page with the same id.";
    22 TagWrong "A bucket's tag is not its page's.";
    23 EmptyFirst "A page's path meets an empty bucket before its own.";
    24 NotReached "A page's path never comes to its bucket.";
    26 OtherStore "The log is of another store: it names another seed than this table's.";
    27 AfterEndUsed "A byte after the log's end is not zero.";
}

impl fmt::Display for Refusal {
    fn fmt(&self, f: &mut fmt::Formatter<'_>) -> fmt::Result {
        write!(f, "{} (refusal {}, {})", self.explanation(), self.number(), self.name())
    }
}

impl Error for Refusal {}

/// What the boundary's number says: nothing for 0, else the refusal. That it is one of these is proved, and the
/// build links no library of another version; any other is kept as it is, and nothing here stops the caller.
pub(crate) fn said(number: u64) -> Result<(), Refusal> {
    match u8::try_from(number).unwrap_or(u8::MAX) {
        0 => Ok(()),
        number => Err(Refusal::from_number(number).unwrap_or(Refusal::Unknown(number))),
    }
}

#[cfg(test)]
mod tests {
    use super::*;

    #[test]
    fn a_number_from_the_boundary() {
        assert_eq!(said(0), Ok(()));
        for refusal in Refusal::all() {
            assert_eq!(said(refusal.number().into()), Err(refusal));
        }
        for (other, kept) in [(25, 25), (255, 255), (256, 255), (257, 255), (u64::MAX, 255)] {
            assert_eq!(said(other), Err(Refusal::Unknown(kept)));
            assert_eq!(Refusal::Unknown(kept).number(), kept);
        }
    }
}
