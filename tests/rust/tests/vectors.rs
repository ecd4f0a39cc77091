//! Every line of ../vectors/Q-06 and Q-12 but the desk's, through the library, the reference and fast Rust: the answer, the number beside it,
//! and the output buffer to its end.
use bgp_policy::{table, Candidate, Offer, Session};
use policy_tests::chain::{end, run, Call, End, Hop};
use policy_tests::lines::{all_run, bytes, call, every, number, optional};
use policy_tests::lines::{sending, told, told_numbered, Compared};
use policy_tests::sides::{as_receipt, Side};
use policy_tests::{counterpart, patterns};

// open: local role, strict, parameters; result: remote role
fn open_line(side: &Side, fields: &[&str]) -> Compared {
    let &[local_role, strict, parameters, "=>", ..] = fields else {
        panic!("not the fields of open: {fields:?}");
    };
    let parameters = bytes(parameters);
    let got = (side.open)(number(local_role), number(strict), &parameters);
    told(&fields[4..], got)
}

// state: prefix length, prefix, own AS, table, block; result: state
fn state_line(side: &Side, fields: &[&str]) -> Compared {
    let &[length, prefix, own_as, table, block, "=>", ..] = fields else {
        panic!("not the fields of state: {fields:?}");
    };
    let (length, prefix, own_as) = (number(length), number(prefix), number(own_as));
    let got = (side.origin_state)(length, prefix, own_as, &bytes(table), &bytes(block));
    told(&fields[6..], got)
}

// state6: prefix length, prefix (16 bytes), own AS, table, block; result: state
fn state6_line(side: &Side, fields: &[&str]) -> Compared {
    let &[length, prefix, own_as, table, block, "=>", ..] = fields else {
        panic!("not the fields of state6: {fields:?}");
    };
    let prefix = bytes(prefix).try_into().expect("a prefix of 16 bytes");
    let (length, prefix, own_as) = (number(length), u128::from_be_bytes(prefix), number(own_as));
    let got = (side.origin_state6)(length, prefix, own_as, &bytes(table), &bytes(block));
    told(&fields[6..], got)
}

// tag: block; result: state, how many tags are thrown out
fn tag_line(side: &Side, fields: &[&str]) -> Compared {
    let &[block, "=>", ..] = fields else {
        panic!("not the fields of tag: {fields:?}");
    };
    told_numbered(&fields[2..], (side.received_tag)(&bytes(block)))
}

// recv: local AS, remote AS, remote role, byte, cap, block; result: block, how many tags are thrown out, state handed on
fn recv_line(side: &Side, fields: &[&str]) -> Compared {
    let &[local_as, remote_as, remote_role, byte, cap, block, "=>", ..] = fields else {
        panic!("not the fields of recv: {fields:?}");
    };
    let session = Session {
        local_as: number(local_as),
        remote_as: number(remote_as),
        local_role: counterpart(number(remote_role)),
        mode: 1,
        one_administration: number(byte),
    };
    let block = bytes(block);
    call(cap, &fields[7..], |out| {
        (side.receive)(session, &block, out)
    })
}

// sendsize: local AS, remote AS, remote role, mode, byte, source, state, block; result: length
fn sendsize_line(side: &Side, fields: &[&str]) -> Compared {
    let &[ref settings @ .., block, "=>", _, _, _] = fields else {
        panic!("not the fields of sendsize: {fields:?}");
    };
    told(&fields[9..], sending(settings).size(side, &bytes(block)))
}

// sendwrite: local AS, remote AS, remote role, mode, byte, source, state, cap, block; result: block
fn sendwrite_line(side: &Side, fields: &[&str]) -> Compared {
    let &[ref settings @ .., cap, block, "=>", _, _, _] = fields else {
        panic!("not the fields of sendwrite: {fields:?}");
    };
    let (sending, block) = (sending(settings), bytes(block));
    call(cap, &fields[10..], |out| {
        as_receipt(sending.write(side, &block, out))
    })
}

// allowed: local AS, remote AS, remote role, mode, byte, source, state, block, sent block; result: 1 for yes, 0 for no
fn allowed_line(side: &Side, fields: &[&str]) -> Compared {
    let &[ref settings @ .., block, sent, "=>", _, _, _] = fields else {
        panic!("not the fields of allowed: {fields:?}");
    };
    let (block, sent) = (bytes(block), bytes(sent));
    told(&fields[10..], sending(settings).check(side, &block, &sent))
}

// choose: mode, client, buffer, `start:length:state:identifier:address,..`; result: index, how many were left
fn choose_line(side: &Side, fields: &[&str]) -> Compared {
    let &[mode, client, buffer, offers, "=>", answer, beside, result] = fields else {
        panic!("not the fields of choose: {fields:?}");
    };
    let offers: Vec<Offer> = match offers {
        "." => Vec::new(),
        _ => offers.split(',').map(offer).collect(),
    };
    let answer: u8 = number(answer);
    let (beside, left) = match (answer, result.split_once(',')) {
        (0, Some((index, left))) => (number(index), number(left)),
        _ => (optional(beside).unwrap_or(0), 0),
    };
    let (mode, client, buffer) = (number(mode), number(client), bytes(buffer));
    let got = (side.choose)(mode, client, &buffer, &table(&offers));
    if got != (answer, beside, left) {
        return Err(format!(
            "answered {got:?}, expected {:?}",
            (answer, beside, left)
        ));
    }
    Ok(())
}

fn offer(text: &str) -> Offer {
    let parts: Vec<&str> = text.split(':').collect();
    let &[start, size, state, identifier, address] = &parts[..] else {
        panic!("not the parts of a candidate: {text}");
    };
    Offer {
        start: number(start),
        size: number(size),
        state: number(state),
        identifier: number(identifier),
        address: number(address),
    }
}

// better: block, state, identifier, address, of each of two candidates; result: index of the winner
fn better_line(side: &Side, fields: &[&str]) -> Compared {
    let &[a, s, i, d, b, t, j, e, "=>", ..] = fields else {
        panic!("not the fields of better: {fields:?}");
    };
    let (first, second) = (bytes(a), bytes(b));
    let first = Candidate {
        block: &first,
        state: number(s),
        identifier: number(i),
        address: number(d),
    };
    let second = Candidate {
        block: &second,
        state: number(t),
        identifier: number(j),
        address: number(e),
    };
    told(&fields[9..], (side.better)(first, second))
}

// A hop: `sender:receiver:sender's role:mode:state:sender's byte:receiver's byte`
fn hop(text: &str) -> Hop {
    let parts: Vec<&str> = text.split(':').collect();
    let &[sender, receiver, role, mode, state, at_sender, at_receiver] = &parts[..] else {
        panic!("not the parts of a hop: {text}");
    };
    let ases = [number(sender), number(receiver)];
    let bytes = [number(at_sender), number(at_receiver)];
    Hop::new(ases, number(role), [number(mode); 2], bytes, number(state))
}

// chain: block, hops => arrived, hop, call, answer, number beside it, block on arrival
fn chain_line(side: &Side, fields: &[&str]) -> Compared {
    let &[block, hops, "=>", arrived, at, call, answer, beside, on_arrival] = fields else {
        panic!("not the fields of chain: {fields:?}");
    };
    let block = bytes(block);
    let hops: Vec<Hop> = match hops {
        "." => Vec::new(),
        _ => hops.split(',').map(hop).collect(),
    };
    let expected = match arrived {
        "1" => End::Arrived(bytes(on_arrival)),
        _ => End::Stopped {
            hop: number(at),
            call: match call {
                "send" => Call::Send,
                "write" => Call::Write,
                "receive" => Call::Receive,
                other => panic!("'{other}' is no call"),
            },
            told: (number(answer), optional(beside).unwrap_or(0)),
        },
    };
    for which in 0..2 {
        let calls = run(side, &block, &hops, |room| patterns(room)[which].clone());
        let got = end(&block, &calls);
        if got != expected {
            return Err(format!("{got:X?}, expected {expected:X?}"));
        }
    }
    Ok(())
}

// A test for the lines of one kind in one file, and one that no line is left out.
macro_rules! lines {
    ($($test:ident: $file:literal, $kind:literal, $compare:ident;)+) => {
        $(#[test]
        fn $test() {
            every($file, $kind, $compare);
        })+

        #[test]
        fn every_line_is_run() {
            all_run(&[$(($file, $kind)),+]);
        }
    };
}

lines! {
    functions_open: "functions.tsv", "open", open_line;
    functions_recv: "functions.tsv", "recv", recv_line;
    functions_sendsize: "functions.tsv", "sendsize", sendsize_line;
    functions_sendwrite: "functions.tsv", "sendwrite", sendwrite_line;
    functions_allowed: "functions.tsv", "allowed", allowed_line;
    functions_chain: "functions.tsv", "chain", chain_line;
    functions_state: "functions.tsv", "state", state_line;
    functions_state6: "functions.tsv", "state6", state6_line;
    functions_tag: "functions.tsv", "tag", tag_line;
    functions_choose: "functions.tsv", "choose", choose_line;
    functions_better: "functions.tsv", "better", better_line;
    boundary_state: "boundary.tsv", "state", state_line;
    boundary_state6: "boundary.tsv", "state6", state6_line;
    boundary_open: "boundary.tsv", "open", open_line;
    boundary_recv: "boundary.tsv", "recv", recv_line;
    boundary_sendsize: "boundary.tsv", "sendsize", sendsize_line;
    boundary_sendwrite: "boundary.tsv", "sendwrite", sendwrite_line;
    boundary_allowed: "boundary.tsv", "allowed", allowed_line;
    chains_chain: "chains.tsv", "chain", chain_line;
}
