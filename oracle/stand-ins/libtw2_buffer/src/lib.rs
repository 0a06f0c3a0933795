//! Stand-in for libtw2_buffer: room in a `Vec<u8>` that a callback may fill.

use std::slice;

#[derive(Clone, Copy, Debug)]
pub struct CapacityError;

/// Room for bytes, and how many of them have been written.
pub struct BufferRef<'d, 's> {
    room: &'d mut [u8],
    written: &'s mut usize,
}

impl<'d, 's> BufferRef<'d, 's> {
    /// # Safety
    /// The caller must write to the room before reading from it.
    pub unsafe fn uninitialized_mut(&mut self) -> &mut [u8] {
        &mut self.room[*self.written..]
    }
    /// # Safety
    /// The next `count` bytes of the room must have been written.
    pub unsafe fn advance(&mut self, count: usize) {
        assert!(count <= self.room.len() - *self.written);
        *self.written += count;
    }
    pub fn write(&mut self, bytes: &[u8]) -> Result<(), CapacityError> {
        let start = *self.written;
        let target = self.room.get_mut(start..start + bytes.len());
        target.ok_or(CapacityError)?.copy_from_slice(bytes);
        *self.written += bytes.len();
        Ok(())
    }
    pub fn initialized(self) -> &'d [u8] {
        &self.room[..*self.written]
    }
}

pub trait ToBufferRef<'d> {
    fn to_buffer_ref<'s>(&'s mut self) -> BufferRef<'d, 's>;
}

pub trait Buffer<'d> {
    type Intermediate: ToBufferRef<'d>;
    fn to_to_buffer_ref(self) -> Self::Intermediate;
}

pub fn with_buffer<'d, B: Buffer<'d>, F, R>(buffer: B, f: F) -> R
where
    F: for<'s> FnOnce(BufferRef<'d, 's>) -> R,
{
    let mut intermediate = buffer.to_to_buffer_ref();
    f(intermediate.to_buffer_ref())
}

/// The spare capacity of a `Vec<u8>`. When dropped, what was written belongs to the `Vec`.
pub struct VecBuffer<'d> {
    vec: &'d mut Vec<u8>,
    written: usize,
}

impl<'d> Buffer<'d> for &'d mut Vec<u8> {
    type Intermediate = VecBuffer<'d>;
    fn to_to_buffer_ref(self) -> VecBuffer<'d> {
        VecBuffer {
            vec: self,
            written: 0,
        }
    }
}

impl<'d> ToBufferRef<'d> for VecBuffer<'d> {
    fn to_buffer_ref<'s>(&'s mut self) -> BufferRef<'d, 's> {
        let spare = self.vec.capacity() - self.vec.len();
        let room = unsafe {
            let end = self.vec.as_mut_ptr().add(self.vec.len());
            slice::from_raw_parts_mut(end, spare)
        };
        BufferRef {
            room,
            written: &mut self.written,
        }
    }
}

impl<'d> Drop for VecBuffer<'d> {
    fn drop(&mut self) {
        unsafe { self.vec.set_len(self.vec.len() + self.written) }
    }
}

/// Only named by the packer, for writing into a packer from outside, which is not used here.
pub struct BufferRefBuffer<'r, 'd, 's> {
    _buffer: &'r mut BufferRef<'d, 's>,
}

impl<'r, 'd, 's> Buffer<'d> for &'r mut BufferRef<'d, 's> {
    type Intermediate = BufferRefBuffer<'r, 'd, 's>;
    fn to_to_buffer_ref(self) -> BufferRefBuffer<'r, 'd, 's> {
        BufferRefBuffer { _buffer: self }
    }
}

impl<'r, 'd, 's> ToBufferRef<'d> for BufferRefBuffer<'r, 'd, 's> {
    fn to_buffer_ref<'t>(&'t mut self) -> BufferRef<'d, 't> {
        unimplemented!("writing into a packer is not used")
    }
}
