//! The functions of the proved archive. This file alone has unsafe code; each function here is safe, and gives the number that came back and the answer.
//!
//! The archive's functions ask nothing of their caller but that pointers and lengths are those of slices: they are proved for all bytes and all
//! numbers, write within the bytes lent to them and nowhere else, and keep nothing when they return.

mod raw {
    extern "C" {
        pub fn uplink_read(
            list: *const u8,
            list_len: usize,
            sum: *mut u8,
            sum_len: usize,
            answer: *mut u64,
        ) -> u64;
        pub fn uplink_derive(
            sum: *const u8,
            sum_len: usize,
            out: *mut u8,
            out_len: usize,
            answer: *mut u64,
        ) -> u64;
        pub fn uplink_integrate(
            sum: *const u8,
            sum_len: usize,
            out: *mut u8,
            out_len: usize,
            answer: *mut u64,
        ) -> u64;
        pub fn uplink_write(
            sum: *const u8,
            sum_len: usize,
            complex: u8,
            out: *mut u8,
            out_len: usize,
            answer: *mut u64,
        ) -> u64;
        pub fn uplink_derivative(
            list: *const u8,
            list_len: usize,
            out: *mut u8,
            out_len: usize,
            answer: *mut u64,
        ) -> u64;
        pub fn uplink_integral(
            list: *const u8,
            list_len: usize,
            out: *mut u8,
            out_len: usize,
            answer: *mut u64,
        ) -> u64;
        pub fn uplink_inverse(
            list: *const u8,
            list_len: usize,
            out: *mut u8,
            out_len: usize,
            answer: *mut u64,
        ) -> u64;
        pub fn uplink_write_faithful(
            sum: *const u8,
            sum_len: usize,
            complex: u8,
            out: *mut u8,
            out_len: usize,
            answer: *mut u64,
        ) -> u64;
        pub fn uplink_derivative_faithful(
            list: *const u8,
            list_len: usize,
            out: *mut u8,
            out_len: usize,
            answer: *mut u64,
        ) -> u64;
        pub fn uplink_integral_faithful(
            list: *const u8,
            list_len: usize,
            out: *mut u8,
            out_len: usize,
            answer: *mut u64,
        ) -> u64;
        pub fn uplink_run(
            list: *const u8,
            list_len: usize,
            x: f64,
            value: *mut f64,
            answer: *mut u64,
        ) -> u64;
        pub fn uplink_value(
            sum: *const u8,
            sum_len: usize,
            x: f64,
            value: *mut f64,
            answer: *mut u64,
        ) -> u64;
        pub fn uplink_cost(list: *const u8, list_len: usize, answer: *mut u64) -> u64;
    }
}

/// Place and count.
pub type Answer = [u64; 2];

/// Place, count, complex flag and pairs.
pub fn read(list: &[u8], sum: &mut [u8]) -> (u64, [u64; 4]) {
    let mut answer = [0; 4];
    // SAFETY: pointers and lengths are those of slices that outlive the call, and what is written to is lent to it alone.
    let number = unsafe {
        raw::uplink_read(
            list.as_ptr(),
            list.len(),
            sum.as_mut_ptr(),
            sum.len(),
            answer.as_mut_ptr(),
        )
    };
    (number, answer)
}

macro_rules! bytes_to_bytes {
    ($($name:ident = $raw:ident,)*) => {$(
        pub fn $name(from: &[u8], out: &mut [u8]) -> (u64, Answer) {
            let mut answer = [0; 2];
            // SAFETY: as in `read`.
            let number = unsafe {
                raw::$raw(from.as_ptr(), from.len(), out.as_mut_ptr(), out.len(), answer.as_mut_ptr())
            };
            (number, answer)
        }
    )*};
}

bytes_to_bytes! {
    derive = uplink_derive,
    integrate = uplink_integrate,
    derivative = uplink_derivative,
    integral = uplink_integral,
    inverse = uplink_inverse,
    derivative_faithful = uplink_derivative_faithful,
    integral_faithful = uplink_integral_faithful,
}

macro_rules! sum_to_list {
    ($($name:ident = $raw:ident,)*) => {$(
        pub fn $name(sum: &[u8], complex: bool, out: &mut [u8]) -> (u64, Answer) {
            let mut answer = [0; 2];
            // SAFETY: as in `read`.
            let number = unsafe {
                raw::$raw(sum.as_ptr(), sum.len(), u8::from(complex), out.as_mut_ptr(), out.len(), answer.as_mut_ptr())
            };
            (number, answer)
        }
    )*};
}

sum_to_list! {
    write = uplink_write,
    write_faithful = uplink_write_faithful,
}

/// The value, and place, steps and peak.
pub fn run(list: &[u8], x: f64) -> (u64, f64, [u64; 3]) {
    let (mut value, mut answer) = (0.0, [0; 3]);
    // SAFETY: as in `read`.
    let number = unsafe {
        raw::uplink_run(
            list.as_ptr(),
            list.len(),
            x,
            &mut value,
            answer.as_mut_ptr(),
        )
    };
    (number, value, answer)
}

/// The value, and place and count.
pub fn value(sum: &[u8], x: f64) -> (u64, f64, Answer) {
    let (mut value, mut answer) = (0.0, [0; 2]);
    // SAFETY: as in `read`.
    let number =
        unsafe { raw::uplink_value(sum.as_ptr(), sum.len(), x, &mut value, answer.as_mut_ptr()) };
    (number, value, answer)
}

/// Place and steps.
pub fn cost(list: &[u8]) -> (u64, [u64; 2]) {
    let mut answer = [0; 2];
    // SAFETY: as in `read`.
    let number = unsafe { raw::uplink_cost(list.as_ptr(), list.len(), answer.as_mut_ptr()) };
    (number, answer)
}
