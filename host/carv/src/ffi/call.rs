//! How a function of the library is called, and what happens where there is no library.

/// Calls a function of `carv-sys`. The caller says why that is safe.
#[cfg(feature = "link")]
macro_rules! called {
    ($function:ident($($argument:expr),* $(,)?)) => {
        $crate::ffi::registers::kept(|| unsafe { carv_sys::$function($($argument),*) })
    };
}

/// Panics, as there is no library to call.
#[cfg(not(feature = "link"))]
macro_rules! called {
    ($function:ident($($argument:expr),* $(,)?)) => {{
        let _ = ($($argument,)*);
        $crate::ffi::call::unlinked(stringify!($function))
    }};
}

pub(super) use called;

/// What a program says that calls the library and was built without it.
#[cfg(not(feature = "link"))]
#[cold]
pub fn unlinked(function: &str) -> ! {
    panic!(
        "{function} was called in a program that was built without its library, libcarv.a: build it with the feature `link` of the package carv, which is on by default"
    )
}

#[cfg(all(test, not(feature = "link")))]
mod tests {
    use crate::{Board, Limits};

    #[test]
    #[should_panic(
        expected = "carv_open was called in a program that was built without its library"
    )]
    fn a_call_without_the_library_says_so() {
        let opened = Board::unopened().reopen(Limits::default());
        unreachable!("{opened:?}");
    }
}
