//! The check of a block that was sent, which is our own: the library beside Rust.
use crate::rows::Table;
use bgp_policy::{send_write, Session, BLOCK_MAX, OWN_ROUTE};
use policy_tests::fast;
use std::hint::black_box;

const YES: (u8, usize) = (0, 1);

/// The rows of blocks, each named by its size, that go out as own routes.
pub fn rows(
    table: &mut Table,
    session: &Session,
    made: &[(String, Vec<u8>)],
) -> Result<(), String> {
    for (size, block) in made {
        let mut sent = vec![0; BLOCK_MAX];
        let (_, length) = send_write(*session, OWN_ROUTE, 0, block, &mut sent);
        let sent = &sent[..length];
        let told = bgp_policy::check_sent(*session, OWN_ROUTE, 0, block, sent);
        if told != YES {
            return Err(format!(
                "check_sent, {size}: {told:?}, where a yes is to be timed"
            ));
        }
        table.measure(
            "check_sent",
            size,
            |_out| {
                bgp_policy::check_sent(
                    black_box(*session),
                    black_box(OWN_ROUTE),
                    black_box(0),
                    black_box(block),
                    black_box(sent),
                )
            },
            |_out| {
                fast::check_sent(
                    black_box(*session),
                    black_box(OWN_ROUTE),
                    black_box(0),
                    black_box(block),
                    black_box(sent),
                )
            },
        )?;
    }
    Ok(())
}
