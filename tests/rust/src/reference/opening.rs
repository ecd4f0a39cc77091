//! "Opening a session".
use super::input::Input;
use super::{counterpart, demand, Refusal};
use super::{BAD_PARAMETERS, DONE, OUT_OF_RANGE, PARAMETERS_MAX, REJECTED, TOO_LONG};

/// The type of a parameter that holds capabilities.
const CAPABILITIES: u8 = 2;
/// The code of the role capability.
const ROLE: u8 = 9;

/// A capability: "code, length, value".
struct Capability {
    code: u8,
    value: Vec<u8>,
}

/// What opening answers: on answer 0 the remote role is beside it.
pub fn open(local_role: u8, strict: u8, parameters: &[u8]) -> (u8, usize) {
    match opened(local_role, strict, parameters) {
        Ok(remote_role) => (DONE, remote_role.into()),
        Err(refusal) => refusal,
    }
}

/// The remote role.
pub fn opened(local_role: u8, strict: u8, parameters: &[u8]) -> Result<u8, Refusal> {
    demand(local_role <= 4, OUT_OF_RANGE)?;
    demand(strict <= 1, OUT_OF_RANGE)?;
    demand(parameters.len() <= PARAMETERS_MAX, TOO_LONG)?;
    let mut roles = capabilities(parameters).ok_or(BAD_PARAMETERS)?;
    roles.retain(|capability| capability.code == ROLE);
    let one_byte = roles.iter().all(|role| role.value.len() == 1);
    demand(one_byte, BAD_PARAMETERS)?;
    // "None received: answer 0 if strict is 0, else 4."
    demand(!roles.is_empty() || strict == 0, REJECTED)?;
    // Of unequal values one at least is not the counterpart, and no value above 4 is.
    let remote_role = counterpart(local_role);
    let agreed = roles.iter().all(|role| role.value == [remote_role]);
    demand(agreed, REJECTED)?;
    Ok(remote_role)
}

/// The capabilities of all parameters, in their order; none for "any other type" or "an overrun".
fn capabilities(parameters: &[u8]) -> Option<Vec<Capability>> {
    let (mut input, mut list) = (Input(parameters), Vec::new());
    while !input.is_empty() {
        let kind = input.byte()?;
        let length = input.byte()?;
        let mut value = Input(input.bytes(length.into())?);
        if kind != CAPABILITIES {
            return None;
        }
        while !value.is_empty() {
            let code = value.byte()?;
            let length = value.byte()?;
            let value = value.bytes(length.into())?.to_vec();
            list.push(Capability { code, value });
        }
    }
    Some(list)
}
