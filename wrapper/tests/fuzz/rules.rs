//! What each call may answer, and what it must leave alone.

use crate::input::Input;
use crate::lent::Lent;
use cases::random::Random;

/// The buffers of one call.
pub struct Buffers {
    pub image: Lent<u8>,
    pub other: Lent<u8>,
    pub work: Lent<u8>,
    pub tape: Lent<u8>,
    pub edits: Lent<u8>,
    pub choices: Lent<u8>,
    pub answer: Lent<u64>,
    pub key: u64,
    pub c: usize,
}

impl Buffers {
    pub fn new(random: &mut Random, input: &Input) -> Buffers {
        let mut bytes = |content: &Vec<u8>| Lent::new(random, content.clone(), 0xa5);
        Buffers {
            image: bytes(&input.image),
            other: bytes(&input.other),
            work: bytes(&input.work),
            tape: bytes(&input.tape),
            edits: bytes(&input.edits),
            choices: bytes(&input.choices),
            answer: Lent::new(random, input.answer.clone(), 0xa5a5_0f0f_a5a5_0f0f),
            key: input.key,
            c: input.c,
        }
    }
}

/// A call, the numbers that it may return, and how many it writes to `answer`.
pub struct Call {
    pub name: &'static str,
    pub make: fn(&mut Buffers) -> u8,
    pub known: &'static [u8],
    numbers: usize,
    /// The refusals with which work holds the image; it stays with the others.
    restores: &'static [u8],
    /// Whether numbers are written on a refusal too, the edit's first.
    names_edit: bool,
}

/// A call whose refusals leave all buffers.
const fn call(
    name: &'static str,
    make: fn(&mut Buffers) -> u8,
    known: &'static [u8],
    numbers: usize,
) -> Call {
    Call {
        name,
        make,
        known,
        numbers,
        restores: &[],
        names_edit: false,
    }
}

/// "From 8 on, work holds the image", in the order of judging: 19 comes with the
/// list, before 8.
const fn transaction(name: &'static str, make: fn(&mut Buffers) -> u8) -> Call {
    // 10 never comes (document 02 (j)).
    let known = &[0, 1, 2, 3, 4, 5, 6, 7, 8, 9, 11, 12, 13, 19];
    Call {
        restores: &[8, 9, 10, 11, 12, 13],
        names_edit: true,
        ..call(name, make, known, 5)
    }
}

/// "13, work then holding the image."
const fn recovery(name: &'static str, make: fn(&mut Buffers) -> u8) -> Call {
    Call {
        restores: &[13],
        ..call(name, make, &[0, 1, 2, 4, 13], 2)
    }
}

pub const TRANSACTION: Call = transaction("transaction", |b| {
    let (image, work, tape) = (b.image.lend(), b.work.lend(), b.tape.lend());
    proved::transaction(image, work, tape, b.edits.lend(), b.answer.lend())
});

pub const TRANSACTION_WORDS: Call = transaction("transaction words", |b| {
    let (image, work, tape) = (b.image.lend(), b.work.lend(), b.tape.lend());
    proved::transaction_words(image, work, tape, b.edits.lend(), b.answer.lend())
});

pub const RECOVER: Call = recovery("recover", |b| {
    let (image, work, tape) = (b.image.lend(), b.work.lend(), b.tape.lend());
    proved::recover(image, work, tape, b.answer.lend())
});

pub const RECOVER_WORDS: Call = recovery("recover words", |b| {
    let (image, work, tape) = (b.image.lend(), b.work.lend(), b.tape.lend());
    proved::recover_words(image, work, tape, b.answer.lend())
});

pub const RUN: Call = call(
    "run",
    |b| proved::run(b.image.lend(), b.work.lend(), b.tape.lend()),
    &[0, 1, 2, 14],
    0,
);

pub const CUT: Call = call(
    "cut",
    |b| {
        let (image, work, tape) = (b.image.lend(), b.work.lend(), b.tape.lend());
        proved::cut(image, work, tape, b.c, b.choices.lend())
    },
    &[0, 1, 2, 14, 15, 16],
    0,
);

pub const COUNT_CUTS: Call = call(
    "count cuts",
    |b| proved::count_cuts(b.image.lend(), b.tape.lend(), b.answer.lend()),
    &[0, 1, 14, 17],
    1,
);

pub const NTH_CUT: Call = call(
    "nth cut",
    |b| {
        let (image, tape, choices) = (b.image.lend(), b.tape.lend(), b.choices.lend());
        proved::nth_cut(image, tape, b.c, choices, b.answer.lend())
    },
    &[0, 1, 14, 16, 17, 18],
    1,
);

/// "Each leaving the third buffer unchanged."
pub const MERGE: Call = call(
    "merge",
    |b| proved::merge(b.image.lend(), b.other.lend(), b.work.lend()),
    &[0, 1, 3, 4, 11, 20],
    0,
);

pub const FORMAT: Call = call("format", |b| proved::format(b.image.lend()), &[0, 1], 0);

pub const CHECK: Call = call("check", |b| proved::check(b.image.lend()), &[0, 1, 3, 4], 0);

pub const LOOKUP: Call = call(
    "lookup",
    |b| proved::lookup(b.image.lend(), b.key, b.answer.lend()),
    &[0, 1, 3, 4, 6],
    3,
);

pub const NEXT_KEY: Call = call(
    "next key",
    |b| proved::next_key(b.image.lend(), b.key, b.answer.lend()),
    &[0, 1, 3, 4],
    2,
);

pub const PREVIEW: Call = Call {
    names_edit: true,
    ..call(
        "preview",
        |b| proved::preview(b.image.lend(), b.edits.lend(), b.key, b.answer.lend()),
        &[0, 1, 3, 4, 5, 6, 7, 8, 9, 19],
        4,
    )
};

impl Call {
    /// One call, held to the rules that need no second implementation.
    pub fn try_on(&self, buffers: &mut Buffers) -> u8 {
        let number = (self.make)(buffers);
        let name = self.name;
        assert!(self.known.contains(&number), "{name} answered {number}");
        assert!(guards_stayed(buffers), "{name} wrote outside a buffer");
        let image_written = name == "format" && number == 0;
        assert!(image_written || buffers.image.stayed(), "image of {name}");
        assert!(buffers.edits.stayed(), "edits of {name}");
        assert!(buffers.other.stayed(), "second book of {name}");
        let choices_written = name == "nth cut" && number == 0;
        assert!(
            choices_written || buffers.choices.stayed(),
            "choices of {name}"
        );
        if number != 0 {
            self.refused(number, buffers);
        }
        self.answer_kept(number, buffers);
        number
    }

    /// "The tape stays. Other buffers stay unless said."
    fn refused(&self, number: u8, buffers: &Buffers) {
        let Buffers { image, work, .. } = buffers;
        let (name, tape) = (self.name, &buffers.tape);
        assert!(tape.stayed(), "tape of {name} refused with {number}");
        let restored = self.restores.contains(&number);
        let wanted = if restored { image } else { work };
        let good = work.after() == wanted.before();
        assert!(good, "work of {name} refused with {number}");
    }

    /// Numbers are written only where there is room for all, and only those.
    fn answer_kept(&self, number: u8, buffers: &Buffers) {
        let (before, after) = (buffers.answer.before(), buffers.answer.after());
        let written = if (number == 0 || self.names_edit) && before.len() >= self.numbers {
            self.numbers
        } else {
            0
        };
        let name = self.name;
        assert_eq!(after[written..], before[written..], "numbers of {name}");
        if number != 0 && written > 0 {
            // "Edit number from 0 (0 unless 5 to 11 in a transaction)"; "19, with
            // its edit's number", and a seventeenth edit is 5; of the preview:
            // "Edit numbers are as in a transaction."
            let most = match number {
                5..=11 => 16,
                19 => 15,
                _ => 0,
            };
            assert!(after[0] <= most);
            assert!(after[1..written].iter().all(|number| *number == 0));
        }
    }
}

fn guards_stayed(buffers: &Buffers) -> bool {
    let Buffers { image, work, .. } = buffers;
    let Buffers { tape, edits, .. } = buffers;
    let bytes = [image, &buffers.other, work, tape, edits, &buffers.choices];
    bytes.iter().all(|lent| lent.guards_stayed()) && buffers.answer.guards_stayed()
}
