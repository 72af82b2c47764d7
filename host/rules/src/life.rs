//! Request 2026-02: a stream's state, after the lifecycle table of VirtIO 1.2 (PCM command lifecycle).

use crate::wire;

/// A state is the last ok command: its code, counted from set parameters.
pub type Life = u8;

pub const SET: Life = 0;
pub const PREPARED: Life = 1;
pub const RELEASED: Life = 2;
pub const STARTED: Life = 3;
pub const STOPPED: Life = 4;

/// The state after this command, if it is answered ok.
pub fn after(code: u32) -> Life {
    (code - wire::SET_PARAMS) as Life
}

/// The table: which commands are permitted from a state. What is no state permits none.
pub fn permits(life: Life, code: u32) -> bool {
    let permitted: &[u32] = match life {
        SET | RELEASED => &[wire::SET_PARAMS, wire::PREPARE],
        PREPARED => &[wire::SET_PARAMS, wire::PREPARE, wire::RELEASE, wire::START],
        STARTED => &[wire::STOP],
        STOPPED => &[wire::RELEASE, wire::START],
        _ => &[],
    };
    permitted.contains(&code)
}

/// "Transfers are taken in the prepared and started states."
pub fn takes_transfers(life: Life) -> bool {
    life == PREPARED || life == STARTED
}
