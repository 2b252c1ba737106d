//! The C functions of `carv-sys`, lent slices of any length ([`c`]) or arrays of the right length,
//! and bytes seen as a board. The only unsafe code of this crate.

mod call;
#[cfg(feature = "link")]
mod registers;
mod view;

use crate::{AREA_BYTES, IMAGE_BYTES, Refusal};
use call::called;

pub use view::{board, board_mut};

/// The bytes of a board.
pub type Area = [u8; AREA_BYTES];

/// How many answer words each call is lent.
pub const ANSWER_WORDS: usize = carv_sys::CARV_ANSWER_WORDS;

/// The answer words of an accepted call; those that it has no use for are 0.
pub type Words = [u64; ANSWER_WORDS];

/// For each listed function two of the same name: one in the module, which is lent area and answer
/// words of any length and answers the number, and one that is lent an area of the right length and
/// makes the answer words. In C all of them have the area and its length first, the answer words
/// and their number last.
macro_rules! functions {
    ($lent:ty, $any_length:ty, $as_pointer:ident, $module:ident:
        $($function:ident($($argument:ident: $type:ty),*);)*) => {
        mod $module {$(
            #[doc = concat!("`", stringify!($function), "` of `include/carv.h`.")]
            #[allow(clippy::too_many_arguments)]
            #[inline]
            pub fn $function(area: $any_length, $($argument: $type,)* out: &mut [u64]) -> u64 {
                // SAFETY: both pointers come with the lengths of the slices that they belong to,
                // the references say that nobody else uses these during the call (nobody else
                // writes an area that is only read), and the function keeps neither.
                super::called!($function(
                    area.$as_pointer(), area.len(), $($argument,)* out.as_mut_ptr(), out.len()
                ))
            }
        )*}

        $(
            #[allow(clippy::too_many_arguments)]
            pub fn $function(area: $lent, $($argument: $type),*) -> Result<Words, Refusal> {
                let mut out = [0; ANSWER_WORDS];
                let number = $module::$function(area, $($argument,)* &mut out);
                Refusal::check(number).map(|()| out)
            }
        )*
    };
}

functions! { &mut Area, &mut [u8], as_mut_ptr, changes:
    carv_open(cpu: u64, memory: u64);
    carv_create(kind: u64, payer: u64, backing: bool);
    carv_insert(kind: u64, payer: u64, bytes: u64);
    carv_create_budget(parent: u64, cpu: u64, memory: u64, time: u64);
    carv_charge_more(id: u64, bytes: u64);
    carv_uncharge(id: u64, bytes: u64);
    carv_remove(id: u64, time: u64);
    carv_refill(id: u64, time: u64);
    carv_charge_cpu(id: u64, ns: u64, time: u64);
    carv_start(
        id: u64, space: u64, cspace: u64, root: u64,
        rip: u64, rsp: u64, rflags: u64, rdi: u64, rsi: u64, cs: u64, ss: u64
    );
    carv_block_current(kind: u64, number: u64);
    carv_wake(id: u64, first: u64, second: u64, third: u64);
    carv_kill(id: u64, cause: u64);
    carv_tick(n: u64);
    carv_plan(n: u64);
}

functions! { &Area, &[u8], as_ptr, readings:
    carv_pays_for_anything(id: u64);
    carv_account(id: u64);
    carv_charge_of(id: u64);
    carv_totals(id: u64);
    carv_is_blocked_on(id: u64, kind: u64, number: u64);
    carv_read_thread(id: u64);
    carv_current();
    carv_switches();
    carv_exit_of(id: u64);
}

/// The C functions on memory of any length, with the numbers that they return.
///
/// Whether the memory is of the right length and holds a sound board is for the function to ask.
/// This is for tests of just that, and for hosts that have only numbers;
/// everyone else is better served by [`Board`](crate::Board), also in memory of their own.
///
/// ```
/// use carv::{Refusal, Totals, c};
///
/// let mut area = vec![0; carv::AREA_BYTES];
/// let mut out = [0; c::ANSWER_WORDS];
/// assert_eq!(c::carv_current(&area, &mut out), 1);
/// assert_eq!(c::carv_open(&mut area, 10_000_000, 1_000_000, &mut out), 0);
/// assert_eq!(c::carv_create(&mut area, 5, 1, true, &mut out), 0);
/// assert_eq!(out[0], 2);
/// assert_eq!(c::carv_remove(&mut area, 2, 0, &mut out[1..]), 1);
///
/// // Numbers and answer words as the types of this crate.
/// Refusal::check(c::carv_totals(&area, 1, &mut out))?;
/// assert_eq!(Totals::from(&out).memory_used_bytes, 64);
/// # Ok::<(), Refusal>(())
/// ```
pub mod c {
    pub use super::changes::*;
    pub use super::readings::*;
    pub use super::{ANSWER_WORDS, Words};

    use super::called;

    /// `carv_create_user_thread` of `include/carv.h`.
    #[inline]
    pub fn carv_create_user_thread(
        area: &mut [u8],
        id: u64,
        budget: u64,
        stack: bool,
        image: &mut [u8],
        out: &mut [u64],
    ) -> u64 {
        // SAFETY: as above, and the image is lent in the same way.
        called!(carv_create_user_thread(
            area.as_mut_ptr(),
            area.len(),
            id,
            budget,
            stack,
            image.as_mut_ptr(),
            image.len(),
            out.as_mut_ptr(),
            out.len(),
        ))
    }

    /// `carv_image` of `include/carv.h`.
    #[inline]
    pub fn carv_image(image: &mut [u8]) -> u64 {
        // SAFETY: the pointer comes with the length of the slice that it belongs to, and the
        // reference says that nobody else uses it during the call.
        called!(carv_image(image.as_mut_ptr(), image.len()))
    }

    /// `carv_is_sound` of `include/carv.h`.
    #[inline]
    pub fn carv_is_sound(area: &[u8]) -> bool {
        // SAFETY: the pointer comes with the length of the slice that it belongs to, and the
        // reference says that nobody writes it during the call.
        called!(carv_is_sound(area.as_ptr(), area.len()))
    }
}

pub fn create_user_thread(
    area: &mut Area,
    id: u64,
    budget: u64,
    stack: bool,
    image: &mut [u8; IMAGE_BYTES],
) -> Result<(), Refusal> {
    let mut out = [0; ANSWER_WORDS];
    let number = c::carv_create_user_thread(area, id, budget, stack, image, &mut out);
    Refusal::check(number)
}

pub fn image(image: &mut [u8; IMAGE_BYTES]) -> Result<(), Refusal> {
    Refusal::check(c::carv_image(image))
}

pub fn is_sound(area: &Area) -> bool {
    c::carv_is_sound(area)
}
