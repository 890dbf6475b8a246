//! The functions of the library on any bytes: slices of any length are answered, and a refusal changes none of their bytes.
//!
//! The crate's `unsafe` code is here and, for the functions for a known book, in `inner` and `book`. A Rust slice is what the library asks for: a
//! pointer that is not null, a length, and bytes that are initialised; and `&mut` keeps a buffer that is written apart from every other.

use crate::Verdict;

// The declarations of include/energy_book.h. No proof holds them to the library; tests/declarations.rs compares them with its source.
mod library {
    extern "C" {
        pub fn energy_book_open(setup: *const u8, setup_len: usize, book: *mut u8, book_len: usize) -> u64;
        pub fn energy_book_is_book(book: *const u8, book_len: usize) -> bool;
        pub fn energy_book_call(
            record: *const u8,
            record_len: usize,
            book: *mut u8,
            book_len: usize,
            prices: *const u8,
            prices_len: usize,
            results: *mut u8,
            results_len: usize,
            balances: *mut u8,
            balances_len: usize,
        ) -> u64;
        pub fn energy_book_net(
            book: *const u8,
            book_len: usize,
            account: u8,
            hour: u8,
            figure: *mut u8,
            figure_len: usize,
        ) -> u64;
        pub fn energy_book_exposure(book: *const u8, book_len: usize, operator: u8, figure: *mut u8, figure_len: usize) -> u64;
        pub fn energy_book_hourly_exposure(
            book: *const u8,
            book_len: usize,
            operator: u8,
            hour: u8,
            figure: *mut u8,
            figure_len: usize,
        ) -> u64;
        pub fn energy_book_read(record: *const u8, record_len: usize, fields: *mut u8, fields_len: usize) -> u64;
        pub fn energy_book_write(fields: *const u8, fields_len: usize, record: *mut u8, record_len: usize) -> u64;
    }
}

/// Opens a book from the bytes of a set-up: fills all of `book`, or refuses by 1, 8 or 9.
pub fn open(setup: &[u8], book: &mut [u8]) -> Verdict {
    // SAFETY: the pointers and lengths are those of slices that live through the call.
    Verdict::unpacked(unsafe { library::energy_book_open(setup.as_ptr(), setup.len(), book.as_mut_ptr(), book.len()) })
}

/// Whether bytes are a book.
pub fn is_book(book: &[u8]) -> bool {
    // SAFETY: the pointer and the length are those of a slice that lives through the call.
    unsafe { library::energy_book_is_book(book.as_ptr(), book.len()) }
}

/// A call of any kind, strips too. Only settle looks at the price table and fills the first bytes of `results` (a byte for each
/// schedule, by place) and `balances` (a figure of 8 bytes for each operator).
pub fn call(record: &[u8], book: &mut [u8], prices: &[u8], results: &mut [u8], balances: &mut [u8]) -> Verdict {
    // SAFETY: the pointers and lengths are those of slices that live through the call.
    Verdict::unpacked(unsafe {
        library::energy_book_call(
            record.as_ptr(),
            record.len(),
            book.as_mut_ptr(),
            book.len(),
            prices.as_ptr(),
            prices.len(),
            results.as_mut_ptr(),
            results.len(),
            balances.as_mut_ptr(),
            balances.len(),
        )
    })
}

/// The net position in kWh of an account in an hour, as a signed figure in the first 8 bytes; refuses by 1, 6 or 10.
pub fn net(book: &[u8], account: u8, hour: u8, figure: &mut [u8]) -> Verdict {
    // SAFETY: the pointers and lengths are those of slices that live through the call.
    Verdict::unpacked(unsafe {
        library::energy_book_net(book.as_ptr(), book.len(), account, hour, figure.as_mut_ptr(), figure.len())
    })
}

/// The exposure in thousandths of a cent of an operator, in the first 8 bytes; refuses by 1, 6 or 10.
pub fn exposure(book: &[u8], operator: u8, figure: &mut [u8]) -> Verdict {
    // SAFETY: the pointers and lengths are those of slices that live through the call.
    Verdict::unpacked(unsafe {
        library::energy_book_exposure(book.as_ptr(), book.len(), operator, figure.as_mut_ptr(), figure.len())
    })
}

/// The exposure in thousandths of a cent of an operator in an hour, in the first 8 bytes; refuses by 1, 6 or 10.
pub fn hourly_exposure(book: &[u8], operator: u8, hour: u8, figure: &mut [u8]) -> Verdict {
    // SAFETY: the pointers and lengths are those of slices that live through the call.
    Verdict::unpacked(unsafe {
        library::energy_book_hourly_exposure(book.as_ptr(), book.len(), operator, hour, figure.as_mut_ptr(), figure.len())
    })
}

/// What a single record says: the fields of its request in the first 34 bytes; refuses by 2, 3 (a strip too), 4, 5 or 10.
pub fn read(record: &[u8], fields: &mut [u8]) -> Verdict {
    // SAFETY: the pointers and lengths are those of slices that live through the call.
    Verdict::unpacked(unsafe { library::energy_book_read(record.as_ptr(), record.len(), fields.as_mut_ptr(), fields.len()) })
}

/// Writes the record of the request that 34 bytes of fields say into the first bytes of `record`; refuses by 3, 5 or 10.
pub fn write(fields: &[u8], record: &mut [u8]) -> Verdict {
    // SAFETY: the pointers and lengths are those of slices that live through the call.
    Verdict::unpacked(unsafe { library::energy_book_write(fields.as_ptr(), fields.len(), record.as_mut_ptr(), record.len()) })
}
