//! Receipt and sending: the library, the reference and fast Rust agree over seeded inputs, buffers to their end.
use bgp_policy::{Receipt, Session, BLOCK_MAX};
use policy_tests::generate::{attributes, block, block_of_length, communities, encode};
use policy_tests::generate::{Attribute, Random};
use policy_tests::settings::{sending, session, some_block};
use policy_tests::sides::{agree, as_receipt, Sending, Side, Stored, LIBRARY};
use policy_tests::tables::Tally;
use policy_tests::{patterns, shown};

const ROUNDS: usize = 60_000;

// A call of one of the functions.
#[derive(Clone, Copy, Debug)]
enum Call {
    Receive(Session),
    SendSize(Sending),
    SendWrite(Sending),
}

impl Call {
    fn at(self, side: &Side, block: &[u8], out: &mut [u8]) -> Receipt {
        match self {
            Call::Receive(session) => (side.receive)(session, block, out),
            Call::SendSize(sending) => as_receipt(sending.size(side, block)),
            Call::SendWrite(sending) => as_receipt(sending.write(side, block, out)),
        }
    }
}

// One call in both patterns of a buffer of `cap` bytes. Of calls answered 0 those with each state handed on are counted, which is 3
// for a sending.
fn agree_in(call: Call, block: &[u8], cap: usize, tally: &mut Tally) -> (u8, usize) {
    let [told, again] = patterns(cap).map(|before| {
        let run = |side: &Side| Stored::by(&before, |out| call.at(side, block, out));
        let stored = agree(run, || {
            format!("{call:?}, buffer {cap}, block {}", shown(block))
        });
        (stored.told, stored.state)
    });
    assert_eq!(told, again, "{call:?}: what a buffer held counts");
    let ((answer, beside), state) = told;
    tally.add(answer, if answer == 0 { state } else { beside });
    (answer, beside)
}

// One call in an ample buffer, then in buffers of the sizes that matter to its answer; where it takes no buffer, once.
fn agree_in_sizes(random: &mut Random, call: Call, block: &[u8], tally: &mut Tally) {
    if let Call::SendSize(..) = call {
        agree_in(call, block, 0, tally);
        return;
    }
    let (answer, length) = agree_in(call, block, BLOCK_MAX + random.below(900), tally);
    if answer == 0 {
        for cap in length - 2..=length + 2 {
            agree_in(call, block, cap, tally);
        }
        agree_in(call, block, random.below(length), tally);
    } else {
        agree_in(call, block, random.pick(&[0, 1, BLOCK_MAX]), tally);
    }
}

fn receipt(random: &mut Random) -> Call {
    Call::Receive(session(random))
}

fn sizing(random: &mut Random) -> Call {
    Call::SendSize(sending(random))
}

fn writing(random: &mut Random) -> Call {
    Call::SendWrite(sending(random))
}

// Every length at which a tag or an OTC begins to have no room, or the block is too long.
fn limits(random: &mut Random, call: fn(&mut Random) -> Call, tally: &mut Tally) {
    for length in (4_030..4_090).chain([4_200, 8_000]) {
        for _ in 0..25 {
            let (call, block) = (call(random), block_of_length(random, length));
            agree_in_sizes(random, call, &block, tally);
        }
    }
}

// Every number of communities around the short form's limit, with any tags among them, in either form.
fn forms(random: &mut Random, call: fn(&mut Random) -> Call, tally: &mut Tally) {
    for count in (1..40).flat_map(|count| [count; 20]) {
        let mut list = attributes(random);
        list.retain(|attribute| !matches!(attribute.kind, 16 | 35));
        let value = communities(random, count);
        let flags = random.pick(&[0xC0, 0xD0, 0xCF]);
        let kind = 16;
        list.insert(random.below(list.len()), Attribute { flags, kind, value });
        let call = call(random);
        agree_in_sizes(random, call, &encode(&list), tally);
    }
}

// Every size of the buffer up to one that is ample.
fn every_size(seed: u64, call: fn(&mut Random) -> Call, tally: &mut Tally) {
    let random = &mut Random(seed);
    for _ in 0..100 {
        let (call, block) = (call(random), block(random));
        for cap in 0..(block.len() + 20).min(400) {
            agree_in(call, &block, cap, tally);
        }
    }
}

fn compare(seed: u64, call: fn(&mut Random) -> Call) -> Tally {
    let (mut random, mut tally) = (Random(seed), Tally::default());
    for _ in 0..ROUNDS {
        let (call, block) = (call(&mut random), some_block(&mut random));
        agree_in_sizes(&mut random, call, &block, &mut tally);
    }
    limits(&mut random, call, &mut tally);
    forms(&mut random, call, &mut tally);
    tally
}

const FAULTS: [(u8, usize); 6] = [(3, 1), (3, 2), (3, 3), (3, 4), (3, 5), (3, 6)];
const STATES: [(u8, usize); 4] = [(0, 0), (0, 1), (0, 2), (0, 3)];

#[test]
fn receipt_agrees() {
    let mut tally = compare(1, receipt);
    every_size(4, receipt, &mut tally);
    let others = [(1, 1), (1, 2), (5, 0), (6, 0), (7, 0)];
    tally.check("receive", &[&STATES[..], &others, &FAULTS].concat());
}

const SENT: [(u8, usize); 7] = [(0, 3), (2, 1), (2, 2), (2, 3), (5, 0), (6, 0), (7, 0)];

#[test]
fn sizes_of_what_is_sent_agree() {
    compare(2, sizing).check("send_size", &[&SENT[..], &FAULTS].concat());
}

#[test]
fn what_is_sent_agrees() {
    let mut tally = compare(2, writing);
    every_size(5, writing, &mut tally);
    tally.check("send_write", &[&SENT[..], &FAULTS].concat());
}

// A block that was sent and is then received, as in a chain.
#[test]
fn a_sent_block_is_received_alike() {
    let (mut random, mut tally) = (Random(3), Tally::default());
    for _ in 0..ROUNDS {
        let (call, block) = (writing(&mut random), block(&mut random));
        let mut sent = vec![0; BLOCK_MAX];
        let told = call.at(&LIBRARY, &block, &mut sent);
        if told.answer != 0 {
            continue;
        }
        let call = receipt(&mut random);
        agree_in_sizes(&mut random, call, &sent[..told.beside], &mut tally);
    }
    let others = [(1, 1), (1, 2), (5, 0), (7, 0)];
    tally.check("receive of sent", &[&STATES[..], &others].concat());
}
