//! The cases that documents 01 and 02 name, run at the functions with the results stored here.
use bgp_policy::{send_write, Session, BLOCK_MAX, OWN_ROUTE};
use policy_tests::{block_of, expected_buffer, hex, patterns, shown};

const PROVIDER: u8 = 0;
const RS: u8 = 1;
const CUSTOMER: u8 = 3;
const PEER: u8 = 4;

// AS 64500's end of its session with AS 64510, with simple tagging.
fn session(local_role: u8) -> Session {
    Session {
        local_as: 64500,
        remote_as: 64510,
        local_role,
        mode: 1,
        one_administration: 0,
    }
}

// Receipt of a block without a tag, of which none is thrown out and none tells a state.
fn receive(session: Session, block: &[u8], out: &mut [u8]) -> (u8, usize) {
    let told = bgp_policy::receive(session, block, out);
    assert_eq!((told.thrown_out, told.state), (0, 3));
    (told.answer, told.beside)
}

// A call in buffers of `cap` bytes answers 0 and stores exactly `block`.
fn stores(cap: usize, block: &[u8], run: impl Fn(&mut [u8]) -> (u8, usize)) {
    for before in patterns(cap) {
        let mut out = before.clone();
        assert_eq!(run(&mut out), (0, block.len()));
        let after = expected_buffer(&before, Some(block));
        assert!(
            out == after,
            "stored {}, expected {}",
            shown(&out),
            shown(&after)
        );
    }
}

// A call in buffers of `cap` bytes gives this answer with this number beside it, and stores nothing.
fn refuses(cap: usize, answer: u8, beside: usize, run: impl Fn(&mut [u8]) -> (u8, usize)) {
    for before in patterns(cap) {
        let mut out = before.clone();
        assert_eq!(run(&mut out), (answer, beside));
        assert!(out == before, "a refusal stored something");
    }
}

// An ORIGIN and an empty AS_PATH.
const OWN: &str = "40010100400200";

// ORIGIN, an empty AS_PATH and a short communities attribute of `count` communities, none of them a tag.
fn with_communities(flags: u8, count: u8) -> Vec<u8> {
    let mut block = hex(OWN);
    block.extend([flags, 16, count * 8]);
    for i in 0..count {
        block.extend([0x00, 0x02, 0, 0, 0, 0, 0, i]);
    }
    block
}

// What the communities of `with_communities` look like after a tag of state 1, under a header, and after them an OTC of AS 64500.
fn tagged(header: &str, count: u8, otc: &str) -> Vec<u8> {
    let mut block = hex(OWN);
    block.extend(hex(header));
    block.extend(&with_communities(0xC0, count)[10..]);
    block.extend(hex("4300000000000001"));
    block.extend(hex(otc));
    block
}

#[test]
fn p2_a_peer_route_is_marked_on_receipt() {
    stores(
        BLOCK_MAX,
        &hex("4001010040020602010000FBFEE023040000FBFE"),
        |out| receive(session(PEER), &hex("4001010040020602010000FBFE"), out),
    );
}

#[test]
fn p3_another_as_in_a_peers_otc_is_a_leak() {
    refuses(BLOCK_MAX, 1, 2, |out| {
        receive(
            session(PEER),
            &hex("4001010040020602010000FBFEC023040000FBF5"),
            out,
        )
    });
}

#[test]
fn p4_an_own_route_to_a_peer_is_marked() {
    stores(BLOCK_MAX, &hex("40010100400200C023040000FBF4"), |out| {
        send_write(session(PEER), OWN_ROUTE, 3, &hex(OWN), out)
    });
}

#[test]
fn p5_a_providers_route_is_withheld_from_a_peer() {
    refuses(BLOCK_MAX, 2, 2, |out| {
        send_write(session(PEER), PROVIDER, 3, &hex(OWN), out)
    });
}

#[test]
fn thirty_communities_and_a_tag_stay_short() {
    stores(BLOCK_MAX, &tagged("C010F8", 30, "C023040000FBF4"), |out| {
        send_write(session(RS), OWN_ROUTE, 1, &with_communities(0xC0, 30), out)
    });
}

#[test]
fn thirty_one_communities_and_a_tag_become_long() {
    stores(
        BLOCK_MAX,
        &tagged("D0100100", 31, "C023040000FBF4"),
        |out| send_write(session(RS), OWN_ROUTE, 1, &with_communities(0xC0, 31), out),
    );
}

// ORIGIN, an empty AS_PATH, a new tag of state 1 and a new OTC of AS 64500, both with these flags.
fn with_new(flags: &str) -> Vec<u8> {
    let tag = format!("{flags}10084300000000000001");
    hex(&format!("{OWN}{tag}{flags}23040000FBF4"))
}

// Document 02, Q-2. Only source 255 is an own route: a customer's is none.
#[test]
fn what_is_new_on_a_learned_route_is_partial() {
    for source in 0..=4 {
        stores(BLOCK_MAX, &with_new("E0"), |out| {
            send_write(session(RS), source, 1, &hex(OWN), out)
        });
    }
    stores(BLOCK_MAX, &with_new("C0"), |out| {
        send_write(session(RS), OWN_ROUTE, 1, &hex(OWN), out)
    });
}

// A communities attribute that is emptied goes away whole, with its flags.
#[test]
fn a_tag_after_an_emptied_attribute_is_new() {
    let block = |flags: &str| hex(&format!("{OWN}{flags}10084300000000000007"));
    stores(BLOCK_MAX, &with_new("E0"), |out| {
        send_write(session(RS), CUSTOMER, 1, &block("C0"), out)
    });
    stores(BLOCK_MAX, &with_new("C0"), |out| {
        send_write(session(RS), OWN_ROUTE, 1, &block("E0"), out)
    });
}

#[test]
fn what_was_there_keeps_its_flags_but_for_the_long_form() {
    for (flags, short, long) in [(0xC0, "C010F8", "D0100100"), (0xE0, "E010F8", "F0100100")] {
        for (source, otc) in [
            (OWN_ROUTE, "C023040000FBF4"),
            (CUSTOMER, "E023040000FBF4"),
            (PROVIDER, "E023040000FBF4"),
        ] {
            stores(BLOCK_MAX, &tagged(short, 30, otc), |out| {
                send_write(session(RS), source, 1, &with_communities(flags, 30), out)
            });
            stores(BLOCK_MAX, &tagged(long, 31, otc), |out| {
                send_write(session(RS), source, 1, &with_communities(flags, 31), out)
            });
        }
    }
    for otc in ["C023040000FBFE", "E023040000FBFE"] {
        let block = hex(&format!("{OWN}{otc}"));
        stores(BLOCK_MAX, &block, |out| receive(session(PEER), &block, out));
        stores(BLOCK_MAX, &block, |out| {
            send_write(session(PROVIDER), OWN_ROUTE, 3, &block, out)
        });
        stores(BLOCK_MAX, &block, |out| {
            send_write(session(PROVIDER), PEER, 3, &block, out)
        });
    }
}

// From a Customer and to a Provider nothing is added.
#[test]
fn a_block_of_4073_passes() {
    let block = block_of(4073);
    stores(BLOCK_MAX, &block, |out| {
        receive(session(PROVIDER), &block, out)
    });
    stores(BLOCK_MAX, &block, |out| {
        send_write(session(CUSTOMER), OWN_ROUTE, 3, &block, out)
    });
}

#[test]
fn a_block_of_4073_that_needs_an_otc_has_no_room() {
    let block = block_of(4073);
    for cap in [BLOCK_MAX, 4080, 5000] {
        refuses(cap, 7, 0, |out| receive(session(PEER), &block, out));
        refuses(cap, 7, 0, |out| {
            send_write(session(PEER), OWN_ROUTE, 3, &block, out)
        });
    }
}

// 4,066 bytes and the seven of an OTC are 4,073.
#[test]
fn an_otc_may_fill_the_block() {
    let block = block_of(4066);
    let marked = |otc: &str| [block.clone(), hex(otc)].concat();
    stores(BLOCK_MAX, &marked("E023040000FBFE"), |out| {
        receive(session(PEER), &block, out)
    });
    stores(BLOCK_MAX, &marked("C023040000FBF4"), |out| {
        send_write(session(PEER), OWN_ROUTE, 3, &block, out)
    });
    let block = block_of(4067);
    refuses(5000, 7, 0, |out| receive(session(PEER), &block, out));
    refuses(5000, 7, 0, |out| {
        send_write(session(PEER), OWN_ROUTE, 3, &block, out)
    });
}

#[test]
fn a_block_of_4074_is_too_long() {
    let block = block_of(4074);
    for cap in [BLOCK_MAX, 5000] {
        refuses(cap, 6, 0, |out| receive(session(PROVIDER), &block, out));
        refuses(cap, 6, 0, |out| {
            send_write(session(CUSTOMER), OWN_ROUTE, 3, &block, out)
        });
    }
}
