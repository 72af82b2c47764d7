//! Stand-in for the parts of `zerocopy` 0.8 that sound.rs and fake.rs use. Assumed: `read_from_bytes` takes a slice of just the
//! type's size, `read_from_prefix` one of at least that; bytes are those of memory, so the host is little-endian; the derives check
//! that every field has the trait and (IntoBytes) that there is no padding.
#![no_std]
extern crate alloc;

use alloc::boxed::Box;
use core::mem::{MaybeUninit, size_of, size_of_val};
use core::ptr;
pub use derive::{FromBytes, Immutable, IntoBytes, KnownLayout};

#[derive(Debug)]
pub struct AllocError;
#[derive(Debug)]
pub struct SizeError;

/// No interior mutability.
/// # Safety
/// as the name says
pub unsafe trait Immutable {}
/// # Safety
/// a sized type or a slice of one
pub unsafe trait KnownLayout {}
/// # Safety
/// all-zero bytes are a value
pub unsafe trait FromZeros {
    fn new_box_zeroed() -> Result<Box<Self>, AllocError>
    where
        Self: Sized,
    {
        // SAFETY: all-zero bytes are a value of Self.
        Ok(Box::new(unsafe { MaybeUninit::zeroed().assume_init() }))
    }
    fn new_box_zeroed_with_elems(count: usize) -> Result<Box<Self>, AllocError>
    where
        Self: ElemSlice,
    {
        Ok(Self::zeroed(count))
    }
}
/// Stands for zerocopy's `KnownLayout<PointerMetadata = usize>`.
pub trait ElemSlice {
    fn zeroed(count: usize) -> Box<Self>;
}
impl<T: FromZeros> ElemSlice for [T] {
    fn zeroed(count: usize) -> Box<Self> {
        // SAFETY: all-zero bytes are a value of T.
        (0..count).map(|_| unsafe { MaybeUninit::<T>::zeroed().assume_init() }).collect()
    }
}
/// # Safety
/// any bytes are a value
pub unsafe trait FromBytes: FromZeros {
    fn read_from_bytes(source: &[u8]) -> Result<Self, SizeError>
    where
        Self: Sized,
    {
        if source.len() != size_of::<Self>() {
            return Err(SizeError);
        }
        // SAFETY: the length is right, and any bytes are a value of Self.
        Ok(unsafe { ptr::read_unaligned(source.as_ptr().cast()) })
    }
    fn read_from_prefix(source: &[u8]) -> Result<(Self, &[u8]), SizeError>
    where
        Self: Sized,
    {
        if source.len() < size_of::<Self>() {
            return Err(SizeError);
        }
        let (a, b) = source.split_at(size_of::<Self>());
        Ok((Self::read_from_bytes(a)?, b))
    }
}
/// # Safety
/// no padding
pub unsafe trait IntoBytes {
    fn as_bytes(&self) -> &[u8]
    where
        Self: Immutable,
    {
        // SAFETY: no padding, so every byte is initialised.
        unsafe { core::slice::from_raw_parts((&raw const *self).cast(), size_of_val(self)) }
    }
    fn as_mut_bytes(&mut self) -> &mut [u8]
    where
        Self: FromBytes,
    {
        // SAFETY: no padding, and any bytes are a value.
        unsafe { core::slice::from_raw_parts_mut((&raw mut *self).cast(), size_of_val(self)) }
    }
}
macro_rules! plain { ($($t:ty),*) => { $(
    // SAFETY: plain integers.
    unsafe impl Immutable for $t {}
    unsafe impl KnownLayout for $t {}
    unsafe impl FromZeros for $t {}
    unsafe impl FromBytes for $t {}
    unsafe impl IntoBytes for $t {}
)* } }
plain!(u8, u16, u32, u64);
macro_rules! many { ($($tr:ident),*) => { $(
    // SAFETY: an array or slice has what its elements have.
    unsafe impl<T: $tr, const N: usize> $tr for [T; N] {}
    unsafe impl<T: $tr> $tr for [T] {}
)* } }
many!(Immutable, KnownLayout, FromZeros, FromBytes, IntoBytes);
