//! The C functions of the proved library, and each of them over slices.
//!
//! The answers start as a number that no function gives, so that one which
//! isn't written shows.

mod c {
    #[link(name = "uplink", kind = "static")]
    unsafe extern "C" {
        pub fn uplink_read(
            list: *const u8,
            list_len: usize,
            sum: *mut u8,
            sum_len: usize,
            answer: *mut u64,
        ) -> u64;
        pub fn uplink_derive(
            sum: *const u8,
            sum_len: usize,
            out: *mut u8,
            out_len: usize,
            answer: *mut u64,
        ) -> u64;
        pub fn uplink_integrate(
            sum: *const u8,
            sum_len: usize,
            out: *mut u8,
            out_len: usize,
            answer: *mut u64,
        ) -> u64;
        pub fn uplink_write(
            sum: *const u8,
            sum_len: usize,
            complex: u8,
            out: *mut u8,
            out_len: usize,
            answer: *mut u64,
        ) -> u64;
        pub fn uplink_derivative(
            list: *const u8,
            list_len: usize,
            out: *mut u8,
            out_len: usize,
            answer: *mut u64,
        ) -> u64;
        pub fn uplink_integral(
            list: *const u8,
            list_len: usize,
            out: *mut u8,
            out_len: usize,
            answer: *mut u64,
        ) -> u64;
        pub fn uplink_inverse(
            list: *const u8,
            list_len: usize,
            out: *mut u8,
            out_len: usize,
            answer: *mut u64,
        ) -> u64;
        pub fn uplink_write_faithful(
            sum: *const u8,
            sum_len: usize,
            complex: u8,
            out: *mut u8,
            out_len: usize,
            answer: *mut u64,
        ) -> u64;
        pub fn uplink_derivative_faithful(
            list: *const u8,
            list_len: usize,
            out: *mut u8,
            out_len: usize,
            answer: *mut u64,
        ) -> u64;
        pub fn uplink_integral_faithful(
            list: *const u8,
            list_len: usize,
            out: *mut u8,
            out_len: usize,
            answer: *mut u64,
        ) -> u64;
        pub fn uplink_run(
            list: *const u8,
            list_len: usize,
            x: f64,
            value: *mut f64,
            answer: *mut u64,
        ) -> u64;
        pub fn uplink_value(
            sum: *const u8,
            sum_len: usize,
            x: f64,
            value: *mut f64,
            answer: *mut u64,
        ) -> u64;
        pub fn uplink_cost(list: *const u8, list_len: usize, answer: *mut u64) -> u64;
    }
}

/// What stands in an answer before the call; the cost of no list that is tried.
const UNWRITTEN: u64 = 0xa5a5_a5a5_a5a5_a5a5;

/// The number that comes back, and the numbers that go with it.
#[derive(Debug, Clone, Copy, PartialEq, Eq)]
pub struct Told<const N: usize> {
    pub number: u64,
    pub answer: [u64; N],
}

/// What a run comes to: the value's bits; then place, steps and peak.
#[derive(Debug, Clone, Copy, PartialEq, Eq)]
pub struct Ran {
    pub value: u64,
    pub told: Told<3>,
}

/// What a sum comes to at a number: the value's bits; then place and count.
#[derive(Debug, Clone, Copy, PartialEq, Eq)]
pub struct Valued {
    pub value: u64,
    pub told: Told<2>,
}

/// The thirteen functions. That they can be replaced one by one lets a test of
/// the comparison put a wrong one in.
#[derive(Clone, Copy)]
pub struct Library {
    /// Place, count, complex flag and pairs.
    pub read: fn(&[u8], &mut [u8]) -> Told<4>,
    /// Place and count; so for all that follow, but the last three.
    pub derive: fn(&[u8], &mut [u8]) -> Told<2>,
    pub integrate: fn(&[u8], &mut [u8]) -> Told<2>,
    pub write: fn(&[u8], u8, &mut [u8]) -> Told<2>,
    pub derivative: fn(&[u8], &mut [u8]) -> Told<2>,
    pub integral: fn(&[u8], &mut [u8]) -> Told<2>,
    pub inverse: fn(&[u8], &mut [u8]) -> Told<2>,
    pub write_faithful: fn(&[u8], u8, &mut [u8]) -> Told<2>,
    pub derivative_faithful: fn(&[u8], &mut [u8]) -> Told<2>,
    pub integral_faithful: fn(&[u8], &mut [u8]) -> Told<2>,
    pub run: fn(&[u8], f64) -> Ran,
    pub value: fn(&[u8], f64) -> Valued,
    /// Place and steps.
    pub cost: fn(&[u8]) -> Told<2>,
}

/// The proved library.
pub const LIBRARY: Library = Library {
    read,
    derive,
    integrate,
    write,
    derivative,
    integral,
    inverse,
    write_faithful,
    derivative_faithful,
    integral_faithful,
    run,
    value,
    cost,
};

macro_rules! from_bytes_to_bytes {
    ($($name:ident, $function:ident, $numbers:literal;)*) => {$(
        pub fn $name(input: &[u8], out: &mut [u8]) -> Told<$numbers> {
            let mut answer = [UNWRITTEN; $numbers];
            // SAFETY: pointers and lengths are those of live slices, and the answer has its length.
            let number = unsafe {
                c::$function(input.as_ptr(), input.len(), out.as_mut_ptr(), out.len(), answer.as_mut_ptr())
            };
            Told { number, answer }
        }
    )*};
}

from_bytes_to_bytes! {
    read, uplink_read, 4;
    derive, uplink_derive, 2;
    integrate, uplink_integrate, 2;
    derivative, uplink_derivative, 2;
    integral, uplink_integral, 2;
    inverse, uplink_inverse, 2;
    derivative_faithful, uplink_derivative_faithful, 2;
    integral_faithful, uplink_integral_faithful, 2;
}

macro_rules! from_a_sum_and_a_flag {
    ($($name:ident, $function:ident;)*) => {$(
        pub fn $name(sum: &[u8], complex: u8, out: &mut [u8]) -> Told<2> {
            let mut answer = [UNWRITTEN; 2];
            // SAFETY: pointers and lengths are those of live slices, and the answer has its length.
            let number = unsafe {
                c::$function(sum.as_ptr(), sum.len(), complex, out.as_mut_ptr(), out.len(), answer.as_mut_ptr())
            };
            Told { number, answer }
        }
    )*};
}

from_a_sum_and_a_flag! {
    write, uplink_write;
    write_faithful, uplink_write_faithful;
}

pub fn run(list: &[u8], x: f64) -> Ran {
    let mut answer = [UNWRITTEN; 3];
    let mut value = f64::NAN;
    // SAFETY: pointer and length are those of a live slice; value and answer are live.
    let number = unsafe {
        c::uplink_run(
            list.as_ptr(),
            list.len(),
            x,
            &mut value,
            answer.as_mut_ptr(),
        )
    };
    let told = Told { number, answer };
    Ran {
        value: value.to_bits(),
        told,
    }
}

pub fn value(sum: &[u8], x: f64) -> Valued {
    let mut answer = [UNWRITTEN; 2];
    let mut value = f64::NAN;
    // SAFETY: pointer and length are those of a live slice; value and answer are live.
    let number =
        unsafe { c::uplink_value(sum.as_ptr(), sum.len(), x, &mut value, answer.as_mut_ptr()) };
    let told = Told { number, answer };
    Valued {
        value: value.to_bits(),
        told,
    }
}

pub fn cost(list: &[u8]) -> Told<2> {
    let mut answer = [UNWRITTEN; 2];
    // SAFETY: pointer and length are those of a live slice, and the answer has its length.
    let number = unsafe { c::uplink_cost(list.as_ptr(), list.len(), answer.as_mut_ptr()) };
    Told { number, answer }
}
