//! Opening of a session: the OPEN's optional parameters and the agreement of roles.
use super::{remote_role, Answer};
use super::{BAD_OPEN, BAD_SETTING, DONE, MAX_PARAMETERS, PEER, REJECTED, TOO_LONG};

const CAPABILITIES: u8 = 2;
const ROLE: u8 = 9;

/// The other end's role, if what its OPEN names agrees with the local role.
pub fn open(local_role: u8, strict: u8, parameters: &[u8]) -> Answer {
    if local_role > PEER || strict > 1 {
        return (BAD_SETTING, 0);
    }
    if parameters.len() > MAX_PARAMETERS {
        return (TOO_LONG, 0);
    }
    let Some(named) = named_roles(parameters) else {
        return (BAD_OPEN, 0);
    };
    let remote = remote_role(local_role);
    let agreed = match named {
        Named::Nothing => strict == 0,
        Named::One(role) => role == remote,
        Named::Several => false,
    };
    if agreed {
        (DONE, remote.into())
    } else {
        (REJECTED, 0)
    }
}

/// The role capabilities of an OPEN; equal ones count as one.
enum Named {
    Nothing,
    One(u8),
    Several,
}

/// The first type-length-value triple as type and value, and the bytes after it; none if it overruns.
fn first_item(bytes: &[u8]) -> Option<(u8, &[u8], &[u8])> {
    let [kind, length, rest @ ..] = bytes else {
        return None;
    };
    let length = usize::from(*length);
    if length > rest.len() {
        return None;
    }
    let (value, rest) = rest.split_at(length);
    Some((*kind, value, rest))
}

/// What all the role capabilities name; none if the parameters are malformed.
fn named_roles(mut parameters: &[u8]) -> Option<Named> {
    let mut named = Named::Nothing;
    while !parameters.is_empty() {
        let (CAPABILITIES, mut capabilities, rest) = first_item(parameters)? else {
            return None;
        };
        while !capabilities.is_empty() {
            let (code, value, rest) = first_item(capabilities)?;
            capabilities = rest;
            if code != ROLE {
                continue;
            }
            let &[role] = value else {
                return None;
            };
            named = match named {
                Named::Nothing => Named::One(role),
                Named::One(other) if other == role => Named::One(role),
                _ => Named::Several,
            };
        }
        parameters = rest;
    }
    Some(named)
}
