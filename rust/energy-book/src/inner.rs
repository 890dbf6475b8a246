//! The inner functions: calls and readings of bytes that are known to be a book, without the check that they are one.

use crate::{Verdict, BOOK_SIZE};

// No proof holds these declarations to the library; tests/declarations.rs compares them with its source.
mod library {
    extern "C" {
        pub fn energy_book_call_in(
            record: *const u8,
            record_len: usize,
            book: *mut u8,
            book_len: usize,
            prices: *const u8,
            prices_len: usize,
            results: *mut u8,
            results_len: usize,
            balances: *mut u8,
            balances_len: usize,
        ) -> u64;
        pub fn energy_book_net_in(
            book: *const u8,
            book_len: usize,
            account: u8,
            hour: u8,
            figure: *mut u8,
            figure_len: usize,
        ) -> u64;
        pub fn energy_book_exposure_in(book: *const u8, book_len: usize, operator: u8, figure: *mut u8, figure_len: usize)
            -> u64;
        pub fn energy_book_hourly_exposure_in(
            book: *const u8,
            book_len: usize,
            operator: u8,
            hour: u8,
            figure: *mut u8,
            figure_len: usize,
        ) -> u64;
    }
}

/// As [`crate::raw::call`]. It leaves a book.
///
/// # Safety
/// The bytes are a book.
pub unsafe fn call(record: &[u8], book: &mut [u8; BOOK_SIZE], prices: &[u8], results: &mut [u8], balances: &mut [u8]) -> Verdict {
    // SAFETY: the pointers and lengths are those of slices that live through the call; the caller answers for the book.
    Verdict::unpacked(unsafe {
        library::energy_book_call_in(
            record.as_ptr(),
            record.len(),
            book.as_mut_ptr(),
            book.len(),
            prices.as_ptr(),
            prices.len(),
            results.as_mut_ptr(),
            results.len(),
            balances.as_mut_ptr(),
            balances.len(),
        )
    })
}

/// As [`crate::raw::net`].
///
/// # Safety
/// The bytes are a book.
pub unsafe fn net(book: &[u8; BOOK_SIZE], account: u8, hour: u8, figure: &mut [u8]) -> Verdict {
    // SAFETY: as for `call`.
    Verdict::unpacked(unsafe {
        library::energy_book_net_in(book.as_ptr(), book.len(), account, hour, figure.as_mut_ptr(), figure.len())
    })
}

/// As [`crate::raw::exposure`].
///
/// # Safety
/// The bytes are a book.
pub unsafe fn exposure(book: &[u8; BOOK_SIZE], operator: u8, figure: &mut [u8]) -> Verdict {
    // SAFETY: as for `call`.
    Verdict::unpacked(unsafe {
        library::energy_book_exposure_in(book.as_ptr(), book.len(), operator, figure.as_mut_ptr(), figure.len())
    })
}

/// As [`crate::raw::hourly_exposure`].
///
/// # Safety
/// The bytes are a book.
pub unsafe fn hourly_exposure(book: &[u8; BOOK_SIZE], operator: u8, hour: u8, figure: &mut [u8]) -> Verdict {
    // SAFETY: as for `call`.
    Verdict::unpacked(unsafe {
        library::energy_book_hourly_exposure_in(book.as_ptr(), book.len(), operator, hour, figure.as_mut_ptr(), figure.len())
    })
}
