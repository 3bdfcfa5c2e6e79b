//! Document 01, 'Each call and when it says no': "A refusal gives its number
//! and edit number from 0 (0 unless 5 to 11 in a transaction)." Document 02, of
//! the preview: "Edit numbers are as in a transaction, 0 for the key asked." A
//! leaf's 4 has 0 there too, though it comes up at an edit. Document 02 (g): "19,
//! with its edit's number". A merge has no edits: its 10 and 11 have 0.

use std::fmt;

/// Why a call says no, and which edit is at fault, counted from 0, where one
/// may be. It is 0 for the key that a lookup or a preview asks.
///
/// ```
/// use quote_store::{Edit, Refusal, Store};
///
/// let mut store = Store::fresh(8)?;
/// let refused = store.apply(&[
///     Edit::Insert { key: 101, value: b"101.25" },
///     Edit::Delete { key: 105 },
/// ]);
/// let refusal = refused.unwrap_err();
/// assert_eq!(refusal, Refusal::KeyMissing { edit: 1 });
/// assert_eq!((refusal.number(), refusal.edit()), (9, 1));
/// assert_eq!(refusal.to_string(), "edit 1: the store has no quote with this key");
/// // All edits or none.
/// assert_eq!(store.get(101), None);
/// # Ok::<(), Refusal>(())
/// ```
#[derive(Clone, Copy, Debug, PartialEq, Eq, Hash)]
pub enum Refusal {
    /// 1: the image, or the buffer that a merge writes, is not 8 to 64 whole pages.
    ImageSize,
    /// 2: the work buffer is not as long as the image.
    WorkSize,
    /// 3: a power failure cut a commit; [`Store::open`](crate::Store::open) or
    /// [`calls::recover`](crate::calls::recover) finishes it.
    MarkWaits,
    /// 4: the image is not that of a store. Of a lookup, a next key or a preview:
    /// page 0, the root, or an index page or a leaf that was read is not; other quotes
    /// may still be answered.
    Unsound,
    /// 5: no edit, a seventeenth, or one that is malformed.
    BadList { edit: usize },
    /// 6: the key is 0 or above [`LAST_KEY`](crate::LAST_KEY).
    KeyRange { edit: usize },
    /// 7: the value is above [`LONGEST_VALUE`](crate::LONGEST_VALUE).
    LongValue { edit: usize },
    /// 8: an insert of a key that the store has.
    KeyPresent { edit: usize },
    /// 9: an update or delete of a key that it has not.
    KeyMissing { edit: usize },
    /// 10: a top page would need a 29th record. No call answers it, since 64 pages
    /// don't suffice for so large a store.
    IndexFull { edit: usize },
    /// 11: an insert or update needs more free pages than there are. Delete
    /// quotes, or move to a larger store, as [the package](crate) shows. Of a merge,
    /// which has edit 0: the quotes of both need more pages than it is given.
    PagesOut { edit: usize },
    /// 12: the edits change more than 15 slot headers. Make them in two
    /// transactions.
    LogFull,
    /// 13: the tape is too short, which one of
    /// [`tape_length`](crate::tape_length) never is.
    TapeShort,
    /// 14: the tape has a malformed command (a barrier with a place is one), or a
    /// place outside the image.
    BadTape,
    /// 15: the cut comes after more commands than the tape has.
    PastEnd,
    /// 16: the choices are not one byte for each line of the image.
    BadChoices,
    /// 17: the tape has more than [`MOST_CUT_COMMANDS`](crate::MOST_CUT_COMMANDS)
    /// commands, too many for all of its cuts to be given.
    LongTape,
    /// 18: the cut's number is not below the number of cuts.
    NoSuchCut,
    /// 19: an insert or update with a value of no bytes. It comes with the list's
    /// refusals, just after 7.
    EmptyValue { edit: usize },
    /// 20: a key is in both of the books that are merged. Delete it from one.
    KeyInBoth,
}

impl Refusal {
    /// The refusal with this number, at this edit if it names one.
    ///
    /// ```
    /// use quote_store::Refusal;
    ///
    /// assert_eq!(Refusal::of(8, 3), Some(Refusal::KeyPresent { edit: 3 }));
    /// assert_eq!(Refusal::of(13, 0), Some(Refusal::TapeShort));
    /// assert_eq!(Refusal::of(21, 0), None);
    /// ```
    pub fn of(number: u8, edit: usize) -> Option<Refusal> {
        Some(match number {
            1 => Refusal::ImageSize,
            2 => Refusal::WorkSize,
            3 => Refusal::MarkWaits,
            4 => Refusal::Unsound,
            5 => Refusal::BadList { edit },
            6 => Refusal::KeyRange { edit },
            7 => Refusal::LongValue { edit },
            8 => Refusal::KeyPresent { edit },
            9 => Refusal::KeyMissing { edit },
            10 => Refusal::IndexFull { edit },
            11 => Refusal::PagesOut { edit },
            12 => Refusal::LogFull,
            13 => Refusal::TapeShort,
            14 => Refusal::BadTape,
            15 => Refusal::PastEnd,
            16 => Refusal::BadChoices,
            17 => Refusal::LongTape,
            18 => Refusal::NoSuchCut,
            19 => Refusal::EmptyValue { edit },
            20 => Refusal::KeyInBoth,
            _ => return None,
        })
    }

    /// Its number in documents 01 and 02, 1 to 20.
    ///
    /// ```
    /// assert_eq!(quote_store::Refusal::Unsound.number(), 4);
    /// ```
    pub fn number(self) -> u8 {
        match self {
            Refusal::ImageSize => 1,
            Refusal::WorkSize => 2,
            Refusal::MarkWaits => 3,
            Refusal::Unsound => 4,
            Refusal::BadList { .. } => 5,
            Refusal::KeyRange { .. } => 6,
            Refusal::LongValue { .. } => 7,
            Refusal::KeyPresent { .. } => 8,
            Refusal::KeyMissing { .. } => 9,
            Refusal::IndexFull { .. } => 10,
            Refusal::PagesOut { .. } => 11,
            Refusal::LogFull => 12,
            Refusal::TapeShort => 13,
            Refusal::BadTape => 14,
            Refusal::PastEnd => 15,
            Refusal::BadChoices => 16,
            Refusal::LongTape => 17,
            Refusal::NoSuchCut => 18,
            Refusal::EmptyValue { .. } => 19,
            Refusal::KeyInBoth => 20,
        }
    }

    /// The number of the edit at fault, from 0; 0 where a refusal names none.
    ///
    /// ```
    /// use quote_store::Refusal;
    ///
    /// assert_eq!(Refusal::BadList { edit: 16 }.edit(), 16);
    /// assert_eq!(Refusal::LogFull.edit(), 0);
    /// ```
    pub fn edit(self) -> usize {
        self.names_edit().unwrap_or(0)
    }

    fn names_edit(self) -> Option<usize> {
        match self {
            Refusal::BadList { edit }
            | Refusal::KeyRange { edit }
            | Refusal::LongValue { edit }
            | Refusal::KeyPresent { edit }
            | Refusal::KeyMissing { edit }
            | Refusal::IndexFull { edit }
            | Refusal::PagesOut { edit }
            | Refusal::EmptyValue { edit } => Some(edit),
            _ => None,
        }
    }

    fn words(self) -> &'static str {
        match self {
            Refusal::ImageSize => "the image is not 8 to 64 whole pages of 1,024 bytes",
            Refusal::WorkSize => "the work buffer is not as long as the image",
            Refusal::MarkWaits => "a power failure cut a commit: recover the store first",
            Refusal::Unsound => {
                "the image, or the part of it that was read, is not that of a sound store"
            }
            Refusal::BadList { .. } => {
                "the list is empty, has a 17th edit, or this edit is malformed"
            }
            Refusal::KeyRange { .. } => "the key is not 1 to 999,999,999,999",
            Refusal::LongValue { .. } => "the value has more than 200 bytes",
            Refusal::KeyPresent { .. } => "the store has a quote with this key already",
            Refusal::KeyMissing { .. } => "the store has no quote with this key",
            Refusal::IndexFull { .. } => {
                "the store is full: its top page would need a 29th record, and 28 are the most"
            }
            Refusal::PagesOut { .. } => "the store is full: too few pages are free",
            Refusal::LogFull => "the edits touch more than 15 pages: make them in two transactions",
            Refusal::TapeShort => "the tape has too few bytes for the commands",
            Refusal::BadTape => "the tape has a malformed command or a place outside the image",
            Refusal::PastEnd => "the cut comes after more commands than the tape has",
            Refusal::BadChoices => "the choices are not one byte for each line of the image",
            Refusal::LongTape => "the tape has more than 12 commands",
            Refusal::NoSuchCut => "the cut's number is not below the number of cuts",
            Refusal::EmptyValue { .. } => "the value has no bytes",
            Refusal::KeyInBoth => "a key is in both of the books that are merged",
        }
    }
}

impl fmt::Display for Refusal {
    fn fmt(&self, to: &mut fmt::Formatter<'_>) -> fmt::Result {
        if let Some(edit) = self.names_edit() {
            write!(to, "edit {edit}: ")?;
        }
        to.write_str(self.words())
    }
}

impl std::error::Error for Refusal {}
