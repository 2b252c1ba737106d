//! The register image of a thread.

use crate::{IMAGE_BYTES, Refusal, ffi};

/// What a thread's floating-point registers start from, aligned as the processor asks. The host
/// keeps it with the thread; it is no part of the board.
#[derive(Clone, Copy, Debug, PartialEq, Eq)]
#[must_use = "the thread's floating-point registers start from it"]
#[repr(C, align(16))]
pub struct Image([u8; IMAGE_BYTES]);

impl Image {
    /// An image as a new thread has it.
    /// [`Board::create_user_thread`](crate::Board::create_user_thread) answers one, so this serves
    /// thread 0 and idle.
    ///
    /// ```
    /// let image = carv::Image::new()?;
    /// assert_eq!(image.as_bytes()[..2], [0x7f, 0x03]);
    /// # Ok::<(), carv::Refusal>(())
    /// ```
    pub fn new() -> Result<Self, Refusal> {
        let mut image = Self::blank();
        ffi::image(&mut image.0)?;
        Ok(image)
    }

    /// Its bytes.
    pub const fn as_bytes(&self) -> &[u8; IMAGE_BYTES] {
        &self.0
    }

    /// Zeros, for a call to fill.
    pub(crate) const fn blank() -> Self {
        Self([0; IMAGE_BYTES])
    }

    /// Its bytes, for a call to fill.
    pub(crate) const fn bytes_mut(&mut self) -> &mut [u8; IMAGE_BYTES] {
        &mut self.0
    }
}

impl AsRef<[u8]> for Image {
    fn as_ref(&self) -> &[u8] {
        &self.0
    }
}
