//! Document 02, Q-12: the check of a block that another make sent. The library, the reference and fast Rust agree over seeded inputs
//! and sent blocks, and wrong functions in the library's place are found.
use bgp_policy::{check_sent, BLOCK_MAX};
use policy_tests::generate::{block_of_length, Random};
use policy_tests::other_make::{changed, own, Change, BAD_SETTING, NO, NO_ROOM, TOO_LONG, YES};
use policy_tests::reference::{read, Attribute};
use policy_tests::settings::{sending, some_block};
use policy_tests::shown;
use policy_tests::sides::{agree, Sending, Side, LIBRARY, REFERENCE};
use policy_tests::tables::{Tally, FAULTS};

// What was told of all blocks, and of those for routes that go out by how they were changed.
#[derive(Default)]
struct Told {
    all: Tally,
    changed: [Tally; Change::ALL.len()],
}

impl Told {
    // All changes of what goes out, at all three implementations; where nothing goes out, of the block handed in.
    fn compare(&mut self, random: &mut Random, sending: Sending, block: &[u8]) {
        let own = own(sending, block);
        let ours = own.as_deref().unwrap_or(block);
        for (at, change) in Change::ALL.into_iter().enumerate() {
            let sent = changed(random, change, ours, block);
            let inputs = || format!("{sending:?}, block {}, sent {}", shown(block), shown(&sent));
            let (answer, beside) = agree(|side| sending.check(side, block, &sent), inputs);
            self.all.add(answer, beside);
            if own.is_some() {
                self.changed[at].add(answer, beside);
            }
        }
    }
}

// What is told of changed blocks for routes that go out: all of it and nothing else.
fn due(change: Change) -> &'static [(u8, usize)] {
    match change {
        Change::Nothing | Change::Sequence => &[YES],
        // a longer form may be too long
        Change::LengthForms => &[YES, TOO_LONG],
        Change::FlagBit | Change::ValueByte | Change::Type | Change::LeftOut => &[NO],
        Change::ByteLess | Change::AnyBytes | Change::Empty => &[NO],
        Change::ValueLength | Change::Added | Change::Repeated | Change::ByteMore => {
            &[NO, TOO_LONG]
        }
        // a single community, or equal ones, stay what they are
        Change::SequenceOfCommunities => &[NO, YES],
        // some damage is none, or of the length's form alone
        Change::Damaged => &[NO, YES, TOO_LONG],
        Change::TooLong => &[TOO_LONG],
        // what is handed in may go out as it is
        Change::HandedIn => &[NO, YES],
    }
}

#[test]
fn checks_agree() {
    let (mut random, mut told) = (Random(81), Told::default());
    // every length at which a tag or an OTC begins to have no room, or a block is too long; and any
    let lengths = (4_030..4_090).flat_map(|length| [Some(length); 8]);
    for length in lengths.chain([None; 30_000]) {
        let (sending, block) = match length {
            Some(length) => (sending(&mut random), block_of_length(&mut random, length)),
            None => (sending(&mut random), some_block(&mut random)),
        };
        told.compare(&mut random, sending, &block);
    }
    let others = [NO, YES, BAD_SETTING, TOO_LONG, NO_ROOM];
    told.all
        .check("check_sent", &[&others[..], &FAULTS].concat());
    for (change, tally) in Change::ALL.into_iter().zip(&told.changed) {
        tally.check(&format!("check_sent, {change:?}"), due(change));
    }
}

// Whether an input is of a route that is withheld.
fn withheld(sending: Sending, block: &[u8]) -> bool {
    sending.size(&LIBRARY, block).0 == 2
}

// Our attributes and theirs; none where there are not both.
fn both(sending: Sending, block: &[u8], sent: &[u8]) -> Option<[Vec<Attribute>; 2]> {
    let ours = own(sending, block)?;
    Some([read(&ours).ok()?, read(sent).ok()?])
}

// Whether each of some attributes is like one of others.
fn each(
    some: &[Attribute],
    others: &[Attribute],
    like: fn(&Attribute, &Attribute) -> bool,
) -> bool {
    some.iter().all(|a| others.iter().any(|b| like(a, b)))
}

// Whether there are as many of ours as of theirs, each like one of theirs.
fn alike(both: Option<[Vec<Attribute>; 2]>, like: fn(&Attribute, &Attribute) -> bool) -> bool {
    both.is_some_and(|[ours, theirs]| ours.len() == theirs.len() && each(&ours, &theirs, like))
}

// Whether two attributes are the same but for these flag bits and the value.
fn same_but(bits: u8, a: &Attribute, b: &Attribute) -> bool {
    a.kind == b.kind && (a.flags | bits) == (b.flags | bits)
}

fn same(a: &Attribute, b: &Attribute) -> bool {
    same_but(0x10, a, b) && a.value == b.value
}

fn sorted(communities: &[u8]) -> Vec<&[u8]> {
    let mut list: Vec<&[u8]> = communities.chunks(8).collect();
    list.sort();
    list
}

// The library with a `check_sent` that tells something else where it is told this of such an input.
macro_rules! wrong {
    ($name:literal, |$sending:ident, $block:ident, $sent:ident| $told:ident if $where:expr => $other:expr) => {
        Side {
            name: $name,
            check_sent: |session, source, state, $block, $sent| {
                let $sending = Sending {
                    session,
                    source,
                    state,
                };
                match check_sent(session, source, state, $block, $sent) {
                    $told if $where => $other,
                    told => told,
                }
            },
            ..LIBRARY
        }
    };
}

const WRONG: [Side; 17] = [
    wrong!("looks at types alone", |s, block, sent| NO
        if alike(both(s, block, sent), |a, b| a.kind == b.kind) => YES),
    wrong!("looks at no flags", |s, block, sent| NO
        if alike(both(s, block, sent), |a, b| same_but(0xFF, a, b) && a.value == b.value) => YES),
    wrong!("looks at no low flags", |s, block, sent| NO
        if alike(both(s, block, sent), |a, b| same_but(0x1F, a, b) && a.value == b.value) => YES),
    wrong!("takes C0 for E0", |s, block, sent| NO
        if alike(both(s, block, sent), |a, b| same_but(0x30, a, b) && a.value == b.value) => YES),
    wrong!("takes the start of a value for all of it", |s, block, sent| NO
        if alike(both(s, block, sent), |a, b| same_but(0x10, a, b) && a.value.starts_with(&b.value)) => YES),
    wrong!("takes communities for a set", |s, block, sent| NO
        if alike(both(s, block, sent), |a, b| same_but(0x10, a, b) && sorted(&a.value) == sorted(&b.value)) => YES),
    wrong!("lets one more through", |s, block, sent| NO
        if both(s, block, sent).is_some_and(|[ours, theirs]| each(&ours, &theirs, same)) => YES),
    wrong!("lets one fewer through", |s, block, sent| NO
        if both(s, block, sent).is_some_and(|[ours, theirs]| each(&theirs, &ours, same)) => YES),
    wrong!("wants our own length forms", |s, block, sent| YES
        if !alike(both(s, block, sent), |a, b| a.flags == b.flags) => NO),
    wrong!("wants our own bytes", |s, block, sent| YES if own(s, block).as_deref() != Some(sent) => NO),
    wrong!("lets nothing be sent of what is withheld", |s, block, sent| NO
        if sent.is_empty() && withheld(s, block) => YES),
    wrong!("answers 2 for what is withheld", |s, block, _sent| NO if withheld(s, block) => s.size(&LIBRARY, block)),
    wrong!("answers 3 for what was sent", |_s, _block, sent| NO
        if read(sent).is_err() => read(sent).err().unwrap_or(NO)),
    wrong!("answers 7 for what is withheld", |s, block, _sent| NO
        if withheld(s, block) && block.len() > 4_066 => NO_ROOM),
    wrong!("takes an unreadable block for a no ahead of 7", |_s, _block, sent| NO_ROOM if read(sent).is_err() => NO),
    wrong!("knows no limit of what was sent", |_s, block, _sent| TOO_LONG if block.len() <= BLOCK_MAX => NO),
    wrong!("answers 6 ahead of 5", |_s, _block, sent| BAD_SETTING if sent.len() > BLOCK_MAX => TOO_LONG),
];

// Whether some seeded block is told otherwise than by the reference.
fn differs(side: &Side, seed: u64) -> bool {
    let random = &mut Random(seed);
    let (sending, block) = (sending(random), some_block(random));
    let own = own(sending, &block);
    Change::ALL.into_iter().any(|change| {
        let sent = changed(random, change, own.as_deref().unwrap_or(&block), &block);
        sending.check(side, &block, &sent) != sending.check(&REFERENCE, &block, &sent)
    })
}

// That the three can disagree: wrong functions in the library's place do.
#[test]
fn wrong_functions_are_found() {
    for side in WRONG {
        let found = (0..4_000).any(|seed| differs(&side, seed));
        assert!(found, "a side that {} is taken for a right one", side.name);
    }
}
