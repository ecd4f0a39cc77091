//! "The chain" of document 01, with document 02's: the calls of a chain of hops, what they answer, and what arrives.
use crate::chain::{answers, end, Call, End, Hop, Made};
use crate::reference::{read, Attribute};
use crate::shown;

const PROVIDER: u8 = 0;
const RS: u8 = 1;
const RS_CLIENT: u8 = 2;
const CUSTOMER: u8 = 3;
const PEER: u8 = 4;

const UNAVAILABLE: u8 = 3;

const COMMUNITIES: u8 = 16;
const OTC: u8 = 35;

// "The order": the first hop out of order, by its index, and the rule that its sending names.
fn out_of_order(hops: &[Hop]) -> Option<(usize, usize)> {
    let (mut climbing, mut marked) = (true, false);
    for (index, hop) in hops.iter().enumerate() {
        if [PROVIDER, PEER, RS].contains(&hop.to()) && !climbing {
            return Some((index, if marked { 1 } else { 2 }));
        }
        climbing = hop.to() == PROVIDER;
        marked |= marks(hop);
    }
    None
}

// The calls of a chain, each with its hop and its answer: all three of every hop before the first out of order, and of that hop the first
// alone, since a sending is two calls, "the second only after a 0".
fn due(hops: &[Hop]) -> Vec<(usize, Call, u8)> {
    let out = out_of_order(hops).map(|(index, _)| index);
    let zeros = (0..out.unwrap_or(hops.len())).flat_map(|hop| Call::ALL.map(|call| (hop, call, 0)));
    zeros.chain(out.map(|hop| (hop, Call::Send, 2))).collect()
}

// Whether what is written of each sending is as long as its verdict said.
fn lengths_agree(calls: &[Made]) -> bool {
    let mut pairs = calls.windows(2).filter(|pair| pair[1].call == Call::Write);
    pairs.all(|pair| pair[0].given.told == pair[1].given.told)
}

fn marks(hop: &Hop) -> bool {
    [PEER, CUSTOMER, RS_CLIENT].contains(&hop.to())
}

// The attributes of types other than 16 and 35.
fn others(attributes: &[Attribute]) -> Vec<&Attribute> {
    let other = |a: &&Attribute| ![COMMUNITIES, OTC].contains(&a.kind);
    attributes.iter().filter(other).collect()
}

fn is_tag(community: &&[u8]) -> bool {
    community.starts_with(&[0x43, 0x00])
}

// The communities of a block, those that are tags and the others.
fn communities(attributes: &[Attribute]) -> (Vec<&[u8]>, Vec<&[u8]>) {
    let found = attributes.iter().filter(|a| a.kind == COMMUNITIES);
    found.flat_map(|a| a.value.chunks(8)).partition(is_tag)
}

// The tags on arrival: that of the last sending, where its sender tags (towards an RS-Client, or under one administration, Q-11) and
// its receiver keeps tags. Those of earlier hops never arrive, as every sending drops all.
fn tags_kept(hops: &[Hop]) -> Vec<Vec<u8>> {
    let Some(last) = hops.last() else {
        return Vec::new();
    };
    let tags = last.to() == RS_CLIENT || last.sending.one_administration == 1;
    let kept = last.receiving.one_administration == 1;
    match tags && kept && last.state != UNAVAILABLE {
        true => vec![vec![0x43, 0, 0, 0, 0, 0, 0, last.state]],
        false => Vec::new(),
    }
}

// What is wrong with a block on arrival, if anything.
fn wrong_arrival(originated: &[u8], hops: &[Hop], arrived: &[u8]) -> Option<&'static str> {
    let before = read(originated).expect("a readable block is originated");
    let Ok(after) = read(arrived) else {
        return Some("unreadable on arrival");
    };
    let otc = after.iter().find(|attribute| attribute.kind == OTC);
    let first = hops.iter().find(|hop| marks(hop));
    let named = first.map(|hop| hop.sending.local_as.to_be_bytes().to_vec());
    let (tags, left) = communities(&after);
    let checks = [
        (hops.is_empty() && arrived != originated, "altered by none"),
        (otc.map(|otc| otc.value.clone()) != named, "another OTC"),
        (!hops.is_empty() && tags != tags_kept(hops), "other tags"),
        (left != communities(&before).1, "other communities"),
        (others(&after) != others(&before), "other attributes"),
    ];
    checks
        .into_iter()
        .find(|(wrong, _)| *wrong)
        .map(|(_, how)| how)
}

/// Whether a chain with these calls went as document 01 says; else how it went.
pub fn as_it_should(originated: &[u8], hops: &[Hop], calls: &[Made]) -> Result<(), String> {
    let rule = out_of_order(hops).map(|(_, rule)| rule);
    let wrong = match end(originated, calls) {
        _ if answers(calls) != due(hops) => Some("other calls or answers"),
        _ if !lengths_agree(calls) => Some("two lengths of one sending"),
        End::Arrived(block) => wrong_arrival(originated, hops, &block),
        End::Stopped { told, .. } => (rule != Some(told.1)).then_some("another rule"),
    };
    let told = |how| format!("{how}: {hops:?}, {}: {calls:?}", shown(originated));
    wrong.map_or(Ok(()), |how| Err(told(how)))
}
