//! A store with the buffers that its calls need.

use crate::edit::value_at;
use crate::{calls, encode, tape_length, Commit, Device, Edit, Preview, Refusal, PAGE};

/// An image has 64 pages at most.
const MOST_PAGES: usize = 64;

/// The length of an image of so many pages. One page too many is refused as any larger
/// number is.
fn length_of(pages: usize) -> usize {
    pages.min(MOST_PAGES + 1) * PAGE
}

/// A store in memory of its own. Its image is always sound: [`open`](Store::open)
/// refuses a damaged one, of which [`calls`] may still read the quotes of good
/// leaves.
///
/// What [`open`](Store::open) and [`apply`](Store::apply) do to the image, a
/// device is to do too: their commands wait in the store, in order, until
/// [`take_tape`](Store::take_tape) hands them out. [`get`](Store::get),
/// [`next_key`](Store::next_key) and [`iter`](Store::iter) show the edits at
/// once; they are durable when the device has carried out the commands. After a
/// power failure the program reads the device and opens what it finds.
///
/// ```
/// use quote_store::{calls, Edit, Store};
///
/// let mut store = Store::fresh(8)?;
/// let before = store.image().to_vec();
/// let mut device = before.clone();
/// store.apply(&[Edit::Insert { key: 101, value: b"101.25" }])?;
///
/// calls::run(&before, &mut device, &store.take_tape())?;
/// assert!(device == store.image());
/// # Ok::<(), quote_store::Refusal>(())
/// ```
///
/// [`fresh`](Store::fresh) and [`open`](Store::open) are for a device that writes a
/// line whole; [`fresh_on`](Store::fresh_on) and [`open_on`](Store::open_on) take
/// the [`Device`].
///
/// A device has one store at a time. A new device first takes the image of a
/// fresh store, or of a [merged](Store::merge) one, whole, before any edit. Where a device fails while it carries out
/// commands, the program drops the store and opens what the device holds, as
/// after a power failure; edits whose commands were not taken are lost then. A
/// store can't be cloned, since its commands are to be carried out once.
pub struct Store {
    device: Device,
    image: Vec<u8>,
    /// Room for the calls.
    work: Vec<u8>,
    room: Vec<u8>,
    /// The commands that wait for the device.
    waiting: Vec<u8>,
}

impl Store {
    /// A store of so many pages, 8 to 64, without quotes. No commands wait: its
    /// [`image`](Store::image) is for the device to take whole.
    ///
    /// ```
    /// use quote_store::{Refusal, Store};
    ///
    /// assert_eq!(Store::fresh(8)?.iter().count(), 0);
    /// assert_eq!(Store::fresh(7).err(), Some(Refusal::ImageSize));
    /// # Ok::<(), Refusal>(())
    /// ```
    pub fn fresh(pages: usize) -> Result<Store, Refusal> {
        Store::fresh_on(Device::Lines, pages)
    }

    /// [`fresh`](Store::fresh) for a device of this kind. The image is the same for
    /// both.
    ///
    /// ```
    /// use quote_store::{Device, Edit, Store};
    ///
    /// let mut store = Store::fresh_on(Device::Words, 8)?;
    /// assert!(store.image() == Store::fresh(8)?.image());
    /// store.apply(&[Edit::Insert { key: 101, value: b"101.25" }])?;
    /// // Word stores have 12 bytes, flushes and barriers 4; there is no line store.
    /// let mut tape = &store.take_tape()[..];
    /// while let [kind, ..] = *tape {
    ///     assert!([1, 3, 4].contains(&kind));
    ///     tape = &tape[if kind == 1 { 12 } else { 4 }..];
    /// }
    /// # Ok::<(), quote_store::Refusal>(())
    /// ```
    pub fn fresh_on(device: Device, pages: usize) -> Result<Store, Refusal> {
        let mut image = vec![0; length_of(pages)];
        calls::format(&mut image)?;
        Ok(Store::around(device, image))
    }

    /// The store with this image. If a power failure cut a commit, it is
    /// finished, and the commands that do the same to the device wait before
    /// those of later calls.
    ///
    /// ```
    /// use quote_store::{calls, Edit, Refusal, Store};
    ///
    /// // 29 quotes make two leaves.
    /// let mut store = Store::fresh(8)?;
    /// for key in 1..=29 {
    ///     store.apply(&[Edit::Insert { key, value: b"price 01" }])?;
    /// }
    /// let before = store.image().to_vec();
    /// let _ = store.take_tape(); // carried out: the device holds `before`
    /// store.apply(&[
    ///     Edit::Update { key: 1, value: b"price 02" },
    ///     Edit::Update { key: 29, value: b"price 02" },
    /// ])?;
    /// let tape = store.take_tape();
    ///
    /// // The power fails after c commands: both quotes are new, or neither is.
    /// let (mut device, mut c, mut waited) = (before.clone(), 0, 0);
    /// while calls::cut(&before, &mut device, &tape, c, &[1; 128]).is_ok() {
    ///     if calls::check(&device) == Err(Refusal::MarkWaits) {
    ///         waited += 1;
    ///     }
    ///     let found = Store::open(&device)?;
    ///     assert_eq!(found.get(1), found.get(29));
    ///     c += 1;
    /// }
    /// assert!(waited > 0);
    /// # Ok::<(), quote_store::Refusal>(())
    /// ```
    ///
    /// The recovery's commands are not lost where the next call comes before
    /// they are taken:
    ///
    /// ```
    /// use quote_store::{calls, Edit, Refusal, Store};
    ///
    /// // A commit waits: a mark that says one header logged, root page 1; and that header.
    /// let mut cut = Store::fresh(8)?.image().to_vec();
    /// cut[..8].copy_from_slice(&[1, 1, 1, 0, 0, 0, 0, 0]);
    /// cut.copy_within(1024..1024 + 64, 64);
    /// assert_eq!(calls::check(&cut), Err(Refusal::MarkWaits));
    ///
    /// let mut store = Store::open(&cut)?;
    /// store.apply(&[Edit::Insert { key: 101, value: b"101.25" }])?;
    ///
    /// let mut device = cut.clone();
    /// calls::run(&cut, &mut device, &store.take_tape())?;
    /// assert_eq!(calls::check(&device), Ok(()));
    /// assert!(device == store.image());
    /// # Ok::<(), Refusal>(())
    /// ```
    pub fn open(image: &[u8]) -> Result<Store, Refusal> {
        Store::open_on(Device::Lines, image)
    }

    /// [`open`](Store::open) for a device of this kind: the recovery's commands,
    /// and those of later calls, are for it.
    ///
    /// ```
    /// use quote_store::{calls, Device, Edit, Store};
    ///
    /// let mut store = Store::fresh_on(Device::Words, 8)?;
    /// let before = store.image().to_vec();
    /// store.apply(&[Edit::Insert { key: 101, value: b"101.25" }])?;
    /// let tape = store.take_tape();
    ///
    /// // The power fails after c commands: the quote is there, or it is not.
    /// let (mut device, mut c, mut there) = (before.clone(), 0, false);
    /// while calls::cut(&before, &mut device, &tape, c, &[1; 128]).is_ok() {
    ///     there = Store::open_on(Device::Words, &device)?.get(101).is_some();
    ///     c += 1;
    /// }
    /// assert!(there);
    /// # Ok::<(), quote_store::Refusal>(())
    /// ```
    pub fn open_on(device: Device, image: &[u8]) -> Result<Store, Refusal> {
        let store = || Store::around(device, image.to_vec());
        match calls::check(image) {
            Ok(()) => Ok(store()),
            Err(Refusal::MarkWaits) => store().recovered(),
            Err(refusal) => Err(refusal),
        }
    }

    /// Two books made into one, of so many pages, 8 to 64: a store with every quote of
    /// both. The books stay, and may be of any sizes. Commands that wait in them play
    /// no part.
    ///
    /// The leaves are as full as 28 records and 960 bytes allow, by rising key; n leaves
    /// need n + 2 pages, more than 28 need n + 4 and more than 56 n + 5, for a top page
    /// and its index pages. Further pages are free, and a program gives some, since an
    /// insert into a full leaf splits it. The store is for a device of the first
    /// book's kind; [`open_on`](Store::open_on) with its [`image`](Store::image) makes
    /// one for another kind. No commands wait: the image is for the device to take
    /// whole, somewhere else than the two books, which the program keeps until it is
    /// durable.
    ///
    /// Refused, with [`Refusal::KeyInBoth`] if a key is in both, with
    /// [`Refusal::PagesOut`] if there are too few pages for the leaves, in this order;
    /// and first with [`Refusal::ImageSize`] if there can be no store of so many pages.
    ///
    /// ```
    /// use quote_store::{Edit, Refusal, Store};
    ///
    /// let (mut euro, mut dollar) = (Store::fresh(8)?, Store::fresh(8)?);
    /// euro.apply(&[Edit::Insert { key: 101, value: b"101.25" }])?;
    /// dollar.apply(&[Edit::Insert { key: 105, value: b"99.50" }])?;
    ///
    /// let mut both = Store::merge(&euro, &dollar, 16)?;
    /// assert!(both.iter().eq([(101, &b"101.25"[..]), (105, b"99.50")]));
    /// let device = both.image().to_vec(); // it takes the whole image first
    /// both.apply(&[Edit::Update { key: 105, value: b"99.75" }])?;
    /// let tape = both.take_tape();
    /// # let mut after = device.clone();
    /// # quote_store::calls::run(&device, &mut after, &tape)?;
    /// # assert!(after == both.image());
    ///
    /// // A quote that both books have is deleted from one of them first.
    /// dollar.apply(&[Edit::Insert { key: 101, value: b"101.00" }])?;
    /// assert_eq!(Store::merge(&euro, &dollar, 16).err(), Some(Refusal::KeyInBoth));
    /// dollar.apply(&[Edit::Delete { key: 101 }])?;
    /// assert!(Store::merge(&euro, &dollar, 16).is_ok());
    /// # Ok::<(), Refusal>(())
    /// ```
    pub fn merge(first: &Store, second: &Store, pages: usize) -> Result<Store, Refusal> {
        let mut image = vec![0; length_of(pages)];
        calls::merge(&first.image, &second.image, &mut image)?;
        Ok(Store::around(first.device, image))
    }

    /// The store with this image, and buffers that suffice for every call.
    fn around(device: Device, image: Vec<u8>) -> Store {
        Store {
            device,
            work: vec![0; image.len()],
            room: vec![0; tape_length(image.len())],
            waiting: Vec::new(),
            image,
        }
    }

    fn recovered(mut self) -> Result<Store, Refusal> {
        let recover = match self.device {
            Device::Lines => calls::recover,
            Device::Words => calls::recover_words,
        };
        let recovery = recover(&self.image, &mut self.work, &mut self.room)?;
        self.carried_out(recovery.bytes);
        Ok(self)
    }

    /// "On acceptance, [work is] the image after all the tape's stores."
    fn carried_out(&mut self, bytes: usize) {
        self.waiting.extend(&self.room[..bytes]);
        std::mem::swap(&mut self.image, &mut self.work);
    }

    /// The value of a key, if the store has it.
    ///
    /// ```
    /// use quote_store::{Edit, Store};
    ///
    /// let mut store = Store::fresh(8)?;
    /// store.apply(&[Edit::Insert { key: 101, value: b"101.25" }])?;
    /// assert_eq!(store.get(101), Some(&b"101.25"[..]));
    /// assert_eq!(store.get(102), None);
    /// // No store has key 0.
    /// assert_eq!(store.get(0), None);
    /// # Ok::<(), quote_store::Refusal>(())
    /// ```
    pub fn get(&self, key: u64) -> Option<&[u8]> {
        // The image is sound, so only a key out of range is refused.
        let place = calls::lookup(&self.image, key).ok().flatten()?;
        Some(&self.image[place])
    }

    /// The smallest key above a number, which need not be a key.
    ///
    /// ```
    /// use quote_store::{Edit, Store};
    ///
    /// let mut store = Store::fresh(8)?;
    /// store.apply(&[Edit::Insert { key: 101, value: b"101.25" }])?;
    /// assert_eq!(store.next_key(0), Some(101));
    /// assert_eq!(store.next_key(101), None);
    /// # Ok::<(), quote_store::Refusal>(())
    /// ```
    pub fn next_key(&self, key: u64) -> Option<u64> {
        // The image is sound, so nothing is refused.
        calls::next_key(&self.image, key).ok().flatten()
    }

    /// All quotes, by rising key.
    ///
    /// ```
    /// use quote_store::{Edit, Store};
    ///
    /// let mut store = Store::fresh(8)?;
    /// store.apply(&[
    ///     Edit::Insert { key: 105, value: b"99.50" },
    ///     Edit::Insert { key: 101, value: b"101.25" },
    /// ])?;
    /// let quotes: Vec<(u64, &[u8])> = store.iter().collect();
    /// assert_eq!(quotes, [(101, &b"101.25"[..]), (105, &b"99.50"[..])]);
    /// # Ok::<(), quote_store::Refusal>(())
    /// ```
    pub fn iter(&self) -> Iter<'_> {
        Iter {
            store: self,
            last: 0,
        }
    }

    /// The value that a key would have if the edits were applied, without
    /// applying them; none if the key would be missing. It is lent, from the edit
    /// or from the store.
    ///
    /// A list with a fault, or with an edit whose key is there or missing where it
    /// must not be, is refused with that edit, whichever key is asked. Whether
    /// there is room for the edits plays no part: [`apply`](Store::apply) may
    /// still say [`Refusal::PagesOut`] or [`Refusal::LogFull`]. Unlike [`get`](Store::get), which refuses nothing,
    /// this refuses a key out of range, with [`Refusal::KeyRange`] and edit 0.
    ///
    /// ```
    /// use quote_store::{Edit, Refusal, Store};
    ///
    /// let mut store = Store::fresh(8)?;
    /// store.apply(&[
    ///     Edit::Insert { key: 101, value: b"101.25" },
    ///     Edit::Insert { key: 105, value: b"99.50" },
    /// ])?;
    /// // A curve looked at before it is sent.
    /// let curve = [
    ///     Edit::Update { key: 101, value: b"101.50" },
    ///     Edit::Insert { key: 110, value: b"98.00" },
    /// ];
    /// let look = |key| store.preview(&curve, key);
    /// assert_eq!(look(101)?, Some(&b"101.50"[..]));
    /// assert_eq!(look(105)?, Some(&b"99.50"[..]));
    /// assert_eq!(look(107)?, None);
    /// assert_eq!(look(0), Err(Refusal::KeyRange { edit: 0 }));
    /// assert_eq!(store.get(101), Some(&b"101.25"[..]));
    ///
    /// // The same once it is sent.
    /// store.apply(&curve)?;
    /// assert_eq!(store.get(101), Some(&b"101.50"[..]));
    /// assert_eq!(store.get(105), Some(&b"99.50"[..]));
    ///
    /// // Sent again, its second edit would insert a key that is there.
    /// assert_eq!(store.preview(&curve, 101), Err(Refusal::KeyPresent { edit: 1 }));
    /// assert_eq!(store.apply(&curve), Err(Refusal::KeyPresent { edit: 1 }));
    /// # Ok::<(), Refusal>(())
    /// ```
    pub fn preview<'a>(
        &'a self,
        edits: &[Edit<'a>],
        key: u64,
    ) -> Result<Option<&'a [u8]>, Refusal> {
        Ok(match calls::preview(&self.image, &encode(edits), key)? {
            // The encoded list ends with this call, the edit's value does not.
            Preview::InList(part) => {
                Some(value_at(edits, part.start).expect("an edit's value stands there"))
            }
            Preview::InImage(part) => Some(&self.image[part]),
            Preview::Missing => None,
        })
    }

    /// Makes all edits, or none. Accepted, the commands that do the same to the
    /// device wait behind those that wait already; refused, nothing is added.
    ///
    /// ```
    /// use quote_store::{Edit, Refusal, Store};
    ///
    /// let mut store = Store::fresh(8)?;
    /// let quote = Edit::Insert { key: 101, value: b"101.25" };
    /// let commit = store.apply(&[quote])?;
    /// assert_eq!(commit.flushes, 2);
    /// assert_eq!(store.apply(&[quote]), Err(Refusal::KeyPresent { edit: 0 }));
    /// assert_eq!(store.apply(&[]), Err(Refusal::BadList { edit: 0 }));
    /// # Ok::<(), Refusal>(())
    /// ```
    pub fn apply(&mut self, edits: &[Edit]) -> Result<Commit, Refusal> {
        let edits = encode(edits);
        let transaction = match self.device {
            Device::Lines => calls::transaction,
            Device::Words => calls::transaction_words,
        };
        let commit = transaction(&self.image, &mut self.work, &mut self.room, &edits)?;
        self.carried_out(commit.bytes);
        Ok(commit)
    }

    /// Takes the commands that wait, for the device to carry out in order: those
    /// of every accepted call since the last taking, none twice. A power failure
    /// within them leaves the transactions of some first calls, each whole. The
    /// bytes of a command are in docs/USING.md.
    ///
    /// Commands gather without bound until they are taken: a program takes them
    /// after each call, or after a few, and one without a device drops them.
    ///
    /// ```
    /// use quote_store::{Edit, Store};
    ///
    /// let mut store = Store::fresh(8)?;
    /// assert!(store.take_tape().is_empty());
    /// store.apply(&[Edit::Insert { key: 101, value: b"101.25" }])?;
    /// store.apply(&[Edit::Delete { key: 101 }])?;
    /// let tape = store.take_tape();
    /// // The first command stores a word; the last two flush line 32, page 2's header,
    /// // and wait for it: a barrier.
    /// assert_eq!(tape[0], 1);
    /// assert!(tape.ends_with(&[3, 0, 32, 0, 4, 0, 0, 0]));
    /// assert_eq!(store.waiting(), 0);
    /// # Ok::<(), quote_store::Refusal>(())
    /// ```
    #[must_use = "what is not carried out by the device is lost to it"]
    pub fn take_tape(&mut self) -> Vec<u8> {
        std::mem::take(&mut self.waiting)
    }

    /// How many bytes of commands wait.
    ///
    /// ```
    /// use quote_store::{Edit, Store};
    ///
    /// let mut store = Store::fresh(8)?;
    /// let commit = store.apply(&[Edit::Insert { key: 101, value: b"101.25" }])?;
    /// assert_eq!(store.waiting(), commit.bytes);
    /// # Ok::<(), quote_store::Refusal>(())
    /// ```
    pub fn waiting(&self) -> usize {
        self.waiting.len()
    }

    /// The image, as the device holds it once it has carried out the commands
    /// that wait. A device that takes it whole is not to carry them out too.
    ///
    /// ```
    /// use quote_store::{calls, Store, PAGE};
    ///
    /// let store = Store::fresh(8)?;
    /// assert_eq!(store.image().len(), 8 * PAGE);
    /// assert_eq!(calls::check(store.image()), Ok(()));
    /// # Ok::<(), quote_store::Refusal>(())
    /// ```
    pub fn image(&self) -> &[u8] {
        &self.image
    }
}

impl std::fmt::Debug for Store {
    fn fmt(&self, to: &mut std::fmt::Formatter<'_>) -> std::fmt::Result {
        to.debug_map().entries(self).finish()
    }
}

impl<'a> IntoIterator for &'a Store {
    type Item = (u64, &'a [u8]);
    type IntoIter = Iter<'a>;

    fn into_iter(self) -> Iter<'a> {
        self.iter()
    }
}

/// The quotes of a store, by rising key: key and value.
///
/// ```
/// use quote_store::{Edit, Store};
///
/// let mut store = Store::fresh(8)?;
/// store.apply(&[Edit::Insert { key: 101, value: b"101.25" }])?;
/// for (key, value) in &store {
///     assert_eq!((key, value), (101, &b"101.25"[..]));
/// }
/// # Ok::<(), quote_store::Refusal>(())
/// ```
#[derive(Clone, Debug)]
pub struct Iter<'a> {
    store: &'a Store,
    last: u64,
}

impl<'a> Iterator for Iter<'a> {
    type Item = (u64, &'a [u8]);

    fn next(&mut self) -> Option<(u64, &'a [u8])> {
        self.last = self.store.next_key(self.last)?;
        let value = self.store.get(self.last)?;
        Some((self.last, value))
    }
}
