//! Opening a session by document 01, run at the function with the results stored here.
use bgp_policy::open;
use policy_tests::hex;

const PROVIDER: u8 = 0;
const RS: u8 = 1;
const RS_CLIENT: u8 = 2;
const CUSTOMER: u8 = 3;
const PEER: u8 = 4;

// Each local role with its counterpart.
const PAIRS: [(u8, u8); 5] = [(0, 3), (1, 2), (2, 1), (3, 0), (4, 4)];

// Values of strict.
const LENIENT: u8 = 0;
const STRICT: u8 = 1;

const REJECTED: (u8, usize) = (4, 0);
const BAD_SETTING: (u8, usize) = (5, 0);
const TOO_LONG: (u8, usize) = (6, 0);
const MALFORMED: (u8, usize) = (8, 0);

// Answer 0 with the remote role beside it.
fn opened(remote_role: u8) -> (u8, usize) {
    (0, remote_role.into())
}

// A parameter or a capability: type or code, length, value.
fn tlv(kind: u8, value: &[u8]) -> Vec<u8> {
    let length = value.len().try_into().expect("one byte of length");
    [&[kind, length], value].concat()
}

// The capability that names a role.
fn role(value: u8) -> Vec<u8> {
    tlv(9, &[value])
}

// A parameter of type 2 that holds capabilities.
fn parameter(capabilities: &[Vec<u8>]) -> Vec<u8> {
    tlv(2, &capabilities.concat())
}

// Parameters of which each holds one capability.
fn one_each(capabilities: &[Vec<u8>]) -> Vec<u8> {
    capabilities.iter().flat_map(|c| tlv(2, c)).collect()
}

// Capabilities of other codes, as routers send them: multiprotocol, route refresh, four-octet AS numbers (64510).
fn others() -> Vec<Vec<u8>> {
    vec![
        tlv(1, &[0, 1, 0, 1]),
        tlv(2, &[]),
        tlv(65, &hex("0000FBFE")),
    ]
}

// A role among the others: first, between them and last.
fn among_others(value: u8) -> impl Iterator<Item = Vec<Vec<u8>>> {
    (0..=others().len()).map(move |at| {
        let mut all = others();
        all.insert(at, role(value));
        all
    })
}

// One parameter of `length` bytes: a Peer's role, and a capability of another code that fills the rest.
fn filled(length: usize) -> Vec<u8> {
    let bytes = parameter(&[role(PEER), tlv(65, &vec![0x5A; length - 7])]);
    assert_eq!(bytes.len(), length);
    bytes
}

#[test]
fn p1_two_peers_agree() {
    assert_eq!(open(PEER, STRICT, &hex("0203090104")), opened(PEER));
}

// Every value that the other end may name, against every local role, strict or not.
#[test]
fn only_the_counterpart_agrees() {
    for (local, remote) in PAIRS {
        for strict in [LENIENT, STRICT] {
            let answer = |named| open(local, strict, &parameter(&[role(named)]));
            assert_eq!(answer(remote), opened(remote));
            for other in (0..=255).filter(|&named| named != remote) {
                assert_eq!(answer(other), REJECTED, "{local} {other}");
            }
        }
    }
}

#[test]
fn a_role_above_4_is_rejected_though_not_strict() {
    assert_eq!(open(PEER, LENIENT, &hex("0203090105")), REJECTED);
    assert_eq!(open(PEER, LENIENT, &hex("02030901FF")), REJECTED);
}

#[test]
fn no_role_opens_unless_strict() {
    let empty = hex("020002000200");
    for (local, remote) in PAIRS {
        for bytes in [vec![], empty.clone(), parameter(&others())] {
            assert_eq!(open(local, LENIENT, &bytes), opened(remote));
            assert_eq!(open(local, STRICT, &bytes), REJECTED);
        }
    }
}

#[test]
fn empty_parameters_are_passed_over() {
    assert_eq!(
        open(CUSTOMER, STRICT, &hex("0200020309010002000200")),
        opened(PROVIDER)
    );
}

#[test]
fn one_parameter_holds_many_capabilities() {
    for all in among_others(RS) {
        assert_eq!(open(RS_CLIENT, STRICT, &parameter(&all)), opened(RS));
    }
}

#[test]
fn many_parameters_hold_one_capability_each() {
    for all in among_others(RS_CLIENT) {
        assert_eq!(open(RS, STRICT, &one_each(&all)), opened(RS_CLIENT));
    }
}

// The value of another code is passed over, though it reads as a role capability, or as two that disagree.
#[test]
fn a_role_inside_another_capability_is_none() {
    let bytes = parameter(&[tlv(65, &hex("090104090103"))]);
    assert_eq!(open(PEER, LENIENT, &bytes), opened(PEER));
    assert_eq!(open(PEER, STRICT, &bytes), REJECTED);
}

#[test]
fn equal_roles_count_as_one() {
    let twice = [role(PROVIDER), role(PROVIDER)];
    assert_eq!(open(CUSTOMER, STRICT, &parameter(&twice)), opened(PROVIDER));
    assert_eq!(open(CUSTOMER, STRICT, &one_each(&twice)), opened(PROVIDER));
    let wrong = [role(PEER), role(PEER)];
    assert_eq!(open(CUSTOMER, LENIENT, &parameter(&wrong)), REJECTED);
}

#[test]
fn unequal_roles_are_rejected_though_one_is_right() {
    for (first, last) in [(PROVIDER, PEER), (PEER, PROVIDER)] {
        let both = [role(first), role(last)];
        for strict in [LENIENT, STRICT] {
            assert_eq!(open(CUSTOMER, strict, &parameter(&both)), REJECTED);
            assert_eq!(open(CUSTOMER, strict, &one_each(&both)), REJECTED);
        }
    }
}

#[test]
fn a_role_is_one_byte() {
    for value in ["", "0404", "040404"] {
        let bytes = parameter(&[tlv(9, &hex(value))]);
        assert_eq!(open(PEER, LENIENT, &bytes), MALFORMED, "value {value}");
    }
}

// The role's byte stands in the whole, but past the end of its parameter: 02 02 | 09 01 | 04, and the same before a parameter.
#[test]
fn a_capability_ends_within_its_parameter() {
    for bytes in ["0202090104", "020209010203090104", "02044104000002020100"] {
        assert_eq!(open(PEER, LENIENT, &hex(bytes)), MALFORMED, "{bytes}");
    }
}

// A type or a code with no length, a value cut short.
#[test]
fn a_cut_is_malformed() {
    for bytes in [
        "02",
        "0201",
        "020109",
        "02020901",
        "02030901",
        "020309010402",
    ] {
        assert_eq!(open(PEER, LENIENT, &hex(bytes)), MALFORMED, "{bytes}");
    }
}

#[test]
fn another_parameter_type_is_malformed() {
    for kind in [0, 1, 3, 255] {
        let bytes = [kind, 3, 9, 1, 4];
        assert_eq!(open(PEER, STRICT, &bytes), MALFORMED, "type {kind}");
        let bytes = [parameter(&[role(PEER)]), vec![kind, 0]].concat();
        assert_eq!(open(PEER, STRICT, &bytes), MALFORMED, "type {kind}, last");
    }
}

// The parameters are read to their end before roles are compared.
#[test]
fn a_malformed_tail_goes_before_unequal_roles() {
    let unequal = parameter(&[role(PEER), role(CUSTOMER)]);
    assert_eq!(open(PEER, STRICT, &unequal), REJECTED);
    for tail in ["02", "0100", "020109", "02020900", "020409020404"] {
        let bytes = [unequal.clone(), hex(tail)].concat();
        assert_eq!(open(PEER, STRICT, &bytes), MALFORMED, "tail {tail}");
    }
}

#[test]
fn parameters_of_255_bytes_are_read() {
    let full = filled(255);
    assert_eq!(full[..2], [2, 253]);
    for bytes in [full, [filled(253), hex("0200")].concat()] {
        assert_eq!(open(PEER, STRICT, &bytes), opened(PEER));
        assert_eq!(open(CUSTOMER, STRICT, &bytes), REJECTED);
    }
    let cut = [filled(254), hex("02")].concat();
    assert_eq!(open(PEER, STRICT, &cut), MALFORMED);
}

// Too long goes before malformed and rejected.
#[test]
fn parameters_of_256_bytes_are_too_long() {
    let whole = [filled(254), hex("0200")].concat();
    assert_eq!(whole.len(), 256);
    assert_eq!(open(PEER, STRICT, &whole), TOO_LONG);
    assert_eq!(open(CUSTOMER, STRICT, &whole), TOO_LONG);
    let cut = [filled(255), hex("02")].concat();
    assert_eq!(open(PEER, STRICT, &cut), TOO_LONG);
}

// A bad setting goes before all others: parameters that agree, that are too long, malformed, or rejected.
#[test]
fn a_setting_out_of_range_goes_first() {
    let agreed = parameter(&[role(PEER)]);
    let unequal = parameter(&[role(PEER), role(RS)]);
    for bytes in [agreed, vec![0; 256], hex("0100"), unequal, vec![]] {
        for bad in 5..=255 {
            assert_eq!(open(bad, LENIENT, &bytes), BAD_SETTING, "role {bad}");
            assert_eq!(open(bad, STRICT, &bytes), BAD_SETTING, "role {bad}");
        }
        for bad in 2..=255 {
            assert_eq!(open(PEER, bad, &bytes), BAD_SETTING, "strict {bad}");
        }
    }
}
