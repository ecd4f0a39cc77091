//! Document 02, Q-12: what is allowed of a block that another make sent, and what is not: laws over seeded inputs, at all three
//! implementations.
use bgp_policy::{BLOCK_MAX, OWN_ROUTE};
use policy_tests::generate::{block, Random};
use policy_tests::other_make::{another, changed, everywhere, other_form, other_forms, own};
use policy_tests::other_make::{Change, FLAG_BITS, NO, TOO_LONG, YES};
use policy_tests::reference::{encode, read, Attribute};
use policy_tests::settings::{plain, sending, some_block};
use policy_tests::sides::{Sending, REFERENCE, SIDES};

const PROVIDER: u8 = 0;

// A law over seeded inputs of routes that go out, with the attributes of what our own sending writes.
fn law(
    seed: u64,
    input: fn(&mut Random) -> Vec<u8>,
    holds: impl Fn(&mut Random, Sending, &[u8], &[Attribute]),
) {
    let (random, mut count) = (&mut Random(seed), 0);
    while count < 1_500 {
        let (sending, block) = (sending(random), input(random));
        if let Some(ours) = own(sending, &block) {
            let list = read(&ours).expect("what sending writes is readable");
            holds(random, sending, &block, &list);
            count += 1;
        }
    }
}

#[test]
fn what_is_written_is_allowed() {
    law(91, some_block, |_, sending, block, _| {
        for side in SIDES {
            let mut out = vec![0; BLOCK_MAX];
            let (answer, length) = sending.write(&side, block, &mut out);
            assert_eq!(answer, 0);
            everywhere(sending, block, &out[..length], YES);
        }
    });
}

// Attributes that are sent are told this, but where they are more bytes than a block may have.
fn in_size(sending: Sending, block: &[u8], list: &[Attribute], told: (u8, usize)) {
    let sent = encode(list);
    let told = if sent.len() > BLOCK_MAX {
        TOO_LONG
    } else {
        told
    };
    everywhere(sending, block, &sent, told);
}

#[test]
fn every_sequence_is_allowed_in_every_length_form() {
    law(92, some_block, |random, sending, block, ours| {
        let mut list = ours.to_vec();
        list.reverse();
        for _ in 0..4 {
            in_size(sending, block, &list, YES);
            other_forms(random, &mut list);
            in_size(sending, block, &list, YES);
            random.shuffle(&mut list);
        }
    });
}

#[test]
fn every_single_length_form_is_allowed() {
    law(93, some_block, |_, sending, block, ours| {
        for at in 0..ours.len() {
            let mut list = ours.to_vec();
            other_form(&mut list[at]);
            in_size(sending, block, &list, YES);
        }
    });
}

// A change of our attributes, in our own sequence and in another, is a no.
fn refused(random: &mut Random, sending: Sending, block: &[u8], mut list: Vec<Attribute>) {
    in_size(sending, block, &list, NO);
    random.shuffle(&mut list);
    in_size(sending, block, &list, NO);
}

#[test]
fn every_other_flag_is_a_no() {
    law(94, block, |random, sending, block, ours| {
        for (at, bit) in (0..ours.len()).flat_map(|at| FLAG_BITS.map(|bit| (at, bit))) {
            let mut list = ours.to_vec();
            list[at].flags ^= bit;
            refused(random, sending, block, list);
        }
    });
}

// Each byte of a value changed in a bit, and the value a byte shorter and longer.
fn other_values(
    random: &mut Random,
    sending: Sending,
    block: &[u8],
    ours: &[Attribute],
    at: usize,
) {
    let value = &ours[at].value;
    let with = |value: Vec<u8>| {
        let mut list = ours.to_vec();
        list[at].value = value;
        list
    };
    for place in 0..value.len() {
        let mut other = value.clone();
        other[place] ^= 1 << random.below(8);
        refused(random, sending, block, with(other));
    }
    // longer values than this have another length form
    if (1..255).contains(&value.len()) {
        refused(random, sending, block, with(value[1..].to_vec()));
        refused(random, sending, block, with([&value[..], &[0]].concat()));
    }
}

#[test]
fn every_other_value_is_a_no() {
    law(95, block, |random, sending, block, ours| {
        let at = random.below(ours.len());
        other_values(random, sending, block, ours, at);
    });
}

#[test]
fn one_attribute_left_out_or_repeated_is_a_no() {
    law(96, block, |random, sending, block, ours| {
        for at in 0..ours.len() {
            let mut list = ours.to_vec();
            let left_out = list.remove(at);
            refused(random, sending, block, list.clone());
            list.extend([left_out.clone(), left_out]);
            refused(random, sending, block, list);
        }
    });
}

#[test]
fn one_attribute_more_is_a_no() {
    law(97, block, |random, sending, block, ours| {
        for place in 0..=ours.len() {
            let mut list = ours.to_vec();
            list.insert(place, another(random, ours));
            refused(random, sending, block, list);
        }
    });
}

// No block is allowed: not what goes out to a Customer, who may have any route, whatever is changed of it, nor one that is unreadable.
fn allows_nothing(random: &mut Random, sending: Sending, block: &[u8]) {
    let goes = own(plain(PROVIDER, OWN_ROUTE, 3), block).unwrap_or_default();
    let mut all = Change::ALL
        .map(|change| changed(random, change, &goes, block))
        .to_vec();
    all.extend([vec![], vec![0x40], vec![0; 3], vec![0; BLOCK_MAX]]);
    for sent in all {
        let told = if sent.len() > BLOCK_MAX { TOO_LONG } else { NO };
        everywhere(sending, block, &sent, told);
    }
}

#[test]
fn a_withheld_route_allows_nothing() {
    let (random, mut rules) = (&mut Random(98), [0; 3]);
    while rules.iter().any(|count| *count < 300) {
        let (sending, block) = (sending(random), some_block(random));
        if let (2, rule) = sending.size(&REFERENCE, &block) {
            rules[rule - 1] += 1;
            allows_nothing(random, sending, &block);
        }
    }
}
