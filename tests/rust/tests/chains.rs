//! Seeded chains of hops: the library, the reference and fast Rust agree in every call, and a route goes as "The chain" of
//! document 01 says, each sending in the two calls of document 02's Q-6.
use bgp_policy::{receive, send_size, send_write, Session, BLOCK_MAX, OWN_ROUTE};
use policy_tests::chain::{answers, end, garbage, hops, originated, roles, run};
use policy_tests::chain::{Call, End, Hop, Made};
use policy_tests::generate::{attributes, filled, Random};
use policy_tests::order::as_it_should;
use policy_tests::sides::{agree, as_receipt, Side, LIBRARY, SIDES};
use policy_tests::tables::Tally;
use policy_tests::{hex, shown, wrong_size};
use std::collections::BTreeSet;

const ROUNDS: u64 = 6_000;

// The calls of a chain, in which all three agree, buffers to their end.
fn agreed(random: &mut Random, block: &[u8], hops: &[Hop]) -> Vec<Made> {
    let seed = random.draw();
    agree(
        |side| {
            let mut random = Random(seed);
            run(side, block, hops, |room| garbage(&mut random, room))
        },
        || format!("{hops:?}, {}", shown(block)),
    )
}

// How a chain ended: the answer and the number beside it, or 0 where the route arrived.
fn answer(block: &[u8], calls: &[Made]) -> (u8, usize) {
    match end(block, calls) {
        End::Arrived(_) => (0, 0),
        End::Stopped { told, .. } => told,
    }
}

// A chain with these roles, mode 1 named on every session and a byte for one administration at each end, that agrees and goes as it
// should.
fn sound(random: &mut Random, roles: &[u8]) -> (u8, usize) {
    let (hops, block) = (hops(random, roles, &[1]), originated(random));
    let calls = agreed(random, &block, &hops);
    let judged = as_it_should(&block, &hops, &calls);
    judged.unwrap_or_else(|how| panic!("{how}"));
    answer(&block, &calls)
}

#[test]
fn seeded_chains_go_as_they_should() {
    let (mut tally, mut met) = (Tally::default(), BTreeSet::new());
    for seed in 0..ROUNDS {
        let mut random = Random(seed);
        let count = match random.below(20) {
            0 => random.below(3),
            _ => 3 + random.below(4),
        };
        let roles = roles(&mut random, count);
        let (answer, beside) = sound(&mut random, &roles);
        tally.add(answer, beside);
        met.insert((count, answer, beside));
    }
    tally.check("chains", &[(0, 0), (2, 1), (2, 2)]);
    // Chains of every number of hops arrive, and from two hops on some are withheld, by either rule.
    for count in 0..=6 {
        assert!(met.contains(&(count, 0, 0)), "{count} hops never arrive");
        let withheld = [1, 2].map(|rule| met.contains(&(count, 2, rule)));
        assert_eq!(withheld, [count >= 2; 2], "{count} hops withheld");
    }
}

// Every sequence of roles of up to five hops.
#[test]
fn every_sequence_of_roles_goes_as_it_should() {
    let (mut random, mut tally) = (Random(51), Tally::default());
    for count in 0..=5 {
        for number in 0..5_usize.pow(count) {
            let role = |i| (number / 5_usize.pow(i) % 5) as u8;
            let roles: Vec<u8> = (0..count).map(role).collect();
            let (answer, beside) = sound(&mut random, &roles);
            tally.add(answer, beside);
        }
    }
    tally.check("sequences of roles", &[(0, 0), (2, 1), (2, 2)]);
}

// Other chains agree too: in every mode, with any readable block at the start, an OTC or too many bytes in it included.
#[test]
fn chains_of_any_kind_agree() {
    let (mut random, mut tally) = (Random(52), Tally::default());
    for _ in 0..ROUNDS {
        let count = 1 + random.below(6);
        let roles = roles(&mut random, count);
        let hops = hops(&mut random, &roles, &[0, 1, 2, 3]);
        let list = attributes(&mut random);
        let length = random.pick(&[0, 0, 0, 4_050, 4_060, 4_066, 4_073, 4_074]);
        let block = filled(&mut random, list, length);
        let (answer, beside) = answer(&block, &agreed(&mut random, &block, &hops));
        tally.add(answer, beside);
    }
    let withheld = [(2, 1), (2, 2), (2, 3)];
    tally.check(
        "any chains",
        &[&withheld[..], &[(0, 0), (6, 0), (7, 0)]].concat(),
    );
}

// The shown cases P11 to P14, and one more: the roles of the senders, and the calls that are made with their answers.
#[test]
fn the_calls_of_short_chains() {
    let whole = |hop| Call::ALL.map(|call| (hop, call, 0));
    for (roles, calls) in [
        (&[3, 4, 0][..], [whole(0), whole(1), whole(2)].concat()),
        (&[4, 4], [&whole(0)[..], &[(1, Call::Send, 2)]].concat()),
        (&[2, 3], [&whole(0)[..], &[(1, Call::Send, 2)]].concat()),
        (&[], vec![]),
        (
            &[3, 0, 3],
            [&whole(0)[..], &whole(1), &[(2, Call::Send, 2)]].concat(),
        ),
    ] {
        let hops = hops(&mut Random(53), roles, &[1]);
        for side in SIDES {
            let made = run(&side, &hex("40010100400200"), &hops, |room| vec![0; room]);
            assert_eq!(answers(&made), calls, "{}: {roles:?}", side.name);
        }
    }
}

// The library with a sending whose two functions hand on another session or source than they get.
macro_rules! wrong_sending {
    ($name:literal, |$session:ident, $source:ident| $other:expr, $from:expr) => {
        Side {
            name: $name,
            send_size: |$session, $source, state, block| send_size($other, $from, state, block),
            send_write: |$session, $source, state, block, out| {
                send_write($other, $from, state, block, out)
            },
            ..LIBRARY
        }
    };
}

fn copies(block: &[u8], out: &mut [u8]) -> (u8, usize) {
    out[..block.len()].copy_from_slice(block);
    (0, block.len())
}

const WRONG: [Side; 12] = [
    wrong_sending!("forgets the source", |s, _source| s, OWN_ROUTE),
    wrong_sending!(
        "marks for the other",
        |s, source| Session {
            local_as: s.remote_as,
            remote_as: s.local_as,
            ..s
        },
        source
    ),
    wrong_sending!(
        "tags by the role alone",
        |s, source| Session {
            one_administration: 0,
            ..s
        },
        source
    ),
    wrong_sending!(
        "sends by default",
        |s, source| Session { mode: 0, ..s },
        source
    ),
    wrong_size!("withholds", (0, _) => (2, 2)),
    wrong_size!("leaves the verdict to the writing", (2, _) => (0, BLOCK_MAX)),
    wrong_size!("asks for room for any block", (0, _) => (0, BLOCK_MAX)),
    wrong_size!("asks for a byte too little", (0, length) => (0, length - 1)),
    Side {
        name: "sends copies",
        send_size: |_, _, _, block| (0, block.len()),
        send_write: |_, _, _, block, out| copies(block, out),
        ..LIBRARY
    },
    Side {
        name: "judges own routes",
        send_size: |s, source, state, block| match source {
            OWN_ROUTE => send_size(s, source, state, block),
            _ => (0, block.len()),
        },
        send_write: |s, source, state, block, out| match source {
            OWN_ROUTE => send_write(s, source, state, block, out),
            _ => copies(block, out),
        },
        ..LIBRARY
    },
    Side {
        name: "receives copies",
        receive: |_, block, out| as_receipt(copies(block, out)),
        ..LIBRARY
    },
    Side {
        name: "strips",
        receive: |s, block, out| {
            receive(
                Session {
                    one_administration: 0,
                    ..s
                },
                block,
                out,
            )
        },
        ..LIBRARY
    },
];

// That chains can go wrong: wrong functions in the library's place do not go as they should.
#[test]
fn wrong_functions_are_found() {
    for side in WRONG {
        let found = (0..200).any(|seed| {
            let mut random = Random(seed);
            let roles = roles(&mut random, 4);
            let (hops, block) = (hops(&mut random, &roles, &[1]), originated(&mut random));
            let calls = run(&side, &block, &hops, |room| garbage(&mut random, room));
            as_it_should(&block, &hops, &calls).is_err()
        });
        assert!(found, "a side that {} is taken for a right one", side.name);
    }
}
