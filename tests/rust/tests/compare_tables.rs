//! Opening, received tag, choosing and comparing two: the library, the reference and fast Rust agree over seeded inputs.
use bgp_policy::{table, Candidate, Offer};
use policy_tests::generate::{block, damaged, Random};
use policy_tests::sides::agree;
use policy_tests::tables::{parameters, parameters_of_length, some_block, Tally, FAULTS};
use policy_tests::{counterpart, shown};

const ROUNDS: usize = 120_000;

fn agree_on_open(random: &mut Random, parameters: &[u8], role: u8, tally: &mut Tally) {
    let local_role = match random.below(30) {
        0 => random.pick(&[5, 255]),
        _ => counterpart(role),
    };
    let strict = match random.below(30) {
        0 => random.pick(&[2, 255]),
        _ => random.below(2) as u8,
    };
    let (answer, beside) = agree(
        |side| (side.open)(local_role, strict, parameters),
        || {
            let parameters = shown(parameters);
            format!("role {local_role}, strict {strict}, parameters {parameters}")
        },
    );
    tally.add(answer, beside);
}

#[test]
fn opening_agrees() {
    let (mut random, mut tally) = (Random(11), Tally::default());
    for round in 0..ROUNDS {
        let role = random.below(5) as u8;
        let mut bytes = parameters(&mut random, role);
        if round % 4 == 0 {
            bytes = damaged(&mut random, bytes);
        }
        agree_on_open(&mut random, &bytes, role, &mut tally);
    }
    for length in (240..270).chain([510, 4_000]).flat_map(|n| [n; 50]) {
        let role = random.below(5) as u8;
        let bytes = parameters_of_length(&mut random, role, length);
        agree_on_open(&mut random, &bytes, role, &mut tally);
    }
    let done = [(0, 0), (0, 1), (0, 2), (0, 3), (0, 4)];
    let refused = [(4, 0), (5, 0), (6, 0), (8, 0)];
    tally.check("open", &[&done[..], &refused].concat());
}

#[test]
fn received_tag_agrees() {
    let (mut random, mut tally) = (Random(13), Tally::default());
    // how many tags are thrown out, three standing for more
    let mut numbers = Tally::default();
    for _ in 0..ROUNDS {
        let block = some_block(&mut random);
        let told = agree(|side| (side.received_tag)(&block), || shown(&block));
        let (answer, beside, thrown_out) = told;
        tally.add(answer, beside);
        numbers.add(answer, thrown_out.min(3));
    }
    let expected = [(0, 0), (0, 1), (0, 2), (0, 3), (6, 0)];
    tally.check("received_tag", &[&expected[..], &FAULTS].concat());
    let expected = [(0, 0), (0, 1), (0, 2), (0, 3), (3, 0), (6, 0)];
    numbers.check("tags thrown out", &expected);
}

// Blocks one after the other in a buffer, and candidates that point at them; one in `bad_in` of these is likely bad.
fn offers(random: &mut Random, count: usize, bad_in: usize) -> (Vec<u8>, Vec<Offer>) {
    let (mut buffer, mut offers) = (vec![0x40; 3], Vec::new());
    for _ in 0..count {
        let bad = random.one_in(bad_in);
        let block = match bad && random.one_in(2) {
            true => some_block(random),
            false => block(random),
        };
        let mut offer = Offer {
            start: buffer.len() as u32,
            size: block.len() as u32,
            state: random.below(4) as u8,
            identifier: random.pick(&[1, 2, 0x7FFF_FFFF, 0x8000_0000]),
            address: random.pick(&[1, 2, 3, 0xC000_0201]),
        };
        buffer.extend(block);
        match random.below(6) {
            0 if bad => offer.state = random.pick(&[4, 255]),
            1 if bad => offer.size = random.pick(&[0, 1, 4_074, 1 << 31, u32::MAX]),
            2 if bad => offer.start = random.pick(&[0, 1, 1 << 31, u32::MAX]),
            3 if bad => offer.size += 1,
            _ => {}
        }
        offers.push(offer);
    }
    (buffer, offers)
}

fn agree_on_choice(random: &mut Random, buffer: &[u8], candidates: &[u8], tally: &mut Tally) {
    let mode = match random.below(40) {
        0 => random.pick(&[4, 255]),
        _ => random.below(4) as u8,
    };
    let client = random.pick(&[1, 2, 9]);
    let (answer, _, _) = agree(
        |side| (side.choose)(mode, client, buffer, candidates),
        || {
            let (buffer, candidates) = (shown(buffer), shown(candidates));
            format!("mode {mode}, client {client}, buffer {buffer}, candidates {candidates}")
        },
    );
    tally.add(answer, 0);
}

#[test]
fn choosing_agrees() {
    let (mut random, mut tally) = (Random(14), Tally::default());
    for _ in 0..ROUNDS / 2 {
        let count = random.below(9);
        let bad_in = random.pick(&[8, 1_000]);
        let (mut buffer, offers) = offers(&mut random, count, bad_in);
        let mut candidates = table(&offers);
        match random.below(30) {
            0 => candidates = damaged(&mut random, candidates),
            1 => drop(candidates.pop()),
            2 => buffer = damaged(&mut random, buffer),
            3 => drop(buffer.pop()),
            _ => {}
        }
        agree_on_choice(&mut random, &buffer, &candidates, &mut tally);
    }
    for count in (62..68).flat_map(|n| [n; 50]) {
        let (buffer, offers) = offers(&mut random, count, 1_000);
        agree_on_choice(&mut random, &buffer, &table(&offers), &mut tally);
    }
    let expected = [(0, 0), (5, 0), (6, 0), (10, 0), (11, 0)];
    tally.check("choose", &expected);
}

#[test]
fn comparing_two_agrees() {
    let (mut random, mut tally) = (Random(15), Tally::default());
    for round in 0..ROUNDS {
        let blocks = [some_block(&mut random), some_block(&mut random)];
        let mut candidate = |block| Candidate {
            block,
            state: match random.below(40) {
                0 => 4 + random.below(252) as u8,
                _ => random.below(4) as u8,
            },
            identifier: random.pick(&[1, 2, 0x8000_0000]),
            address: random.pick(&[1, 2, 0xC000_0201]),
        };
        // Every third pair has the same block, so that identifier, address and index decide.
        let second = if round % 3 == 0 { 0 } else { 1 };
        let (first, second) = (candidate(&blocks[0]), candidate(&blocks[second]));
        let (answer, beside) = agree(
            |side| (side.better)(first, second),
            || format!("{first:X?}, {second:X?}"),
        );
        tally.add(answer, beside);
    }
    tally.check("better", &[(0, 0), (0, 1), (10, 0), (10, 1)]);
}
