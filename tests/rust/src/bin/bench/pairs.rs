//! The library's two functions of sending, beside each other.
use crate::rows::Table;
use bgp_policy::{send_size, send_write, Session, OWN_ROUTE};
use std::hint::black_box;

/// The rows of blocks, each named by its size, that go out as own routes.
pub fn rows(
    table: &mut Table,
    session: &Session,
    made: &[(String, Vec<u8>)],
) -> Result<(), String> {
    for (size, block) in made {
        table.measure_told(
            "sending",
            size,
            |_out| {
                send_size(
                    black_box(*session),
                    black_box(OWN_ROUTE),
                    black_box(0),
                    black_box(block),
                )
            },
            |out| {
                send_write(
                    black_box(*session),
                    black_box(OWN_ROUTE),
                    black_box(0),
                    black_box(block),
                    black_box(out),
                )
            },
        )?;
    }
    Ok(())
}
