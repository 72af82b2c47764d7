//! Stand-in for the crate's config module. Assumed: `read_config!` gives the number that stands at the field's offset of the
//! configuration space, little-endian, and does not fail; sound.rs reads three u32 fields and writes none.
use zerocopy::{FromBytes, Immutable, IntoBytes};

#[derive(FromBytes, Immutable, IntoBytes)]
#[repr(transparent)]
pub struct ReadOnly<T> {
    _value: T,
}

macro_rules! read_config {
    ($transport:expr, $space:ty, $field:ident) => {
        $transport.config_u32(core::mem::offset_of!($space, $field))
    };
}
pub(crate) use read_config;
