//! The thirteen entries over bytes, with the caller's buffers: nothing is allocated.
//!
//! A buffer of [`SUM_BYTES`](crate::SUM_BYTES) has room for any sum and one of [`LIST_BYTES`](crate::LIST_BYTES) for any list. A refusal changes no byte
//! of it; a result is written to its front, and the bytes behind that stay as they were.
//!
//! ```
//! use uplink::{bytes, LIST_BYTES, RECORD_BYTES};
//!
//! // Dup, Mul: x squared
//! let mut list = [0; 2 * RECORD_BYTES];
//! list[..2].copy_from_slice(&[5, 3]);
//! list[RECORD_BYTES..][..2].copy_from_slice(&[5, 10]);
//!
//! let mut room = [0; LIST_BYTES];
//! let derivative = bytes::derivative(&list, &mut room)?;
//! assert_eq!(derivative.len(), 2 * RECORD_BYTES); // push 2, Mul
//! assert_eq!(bytes::run(derivative, 1.5)?.value, 3.0);
//! # Ok::<(), uplink::Refused>(())
//! ```

use crate::{ffi, Refusal, Refused, ENTRY_BYTES, RECORD_BYTES};

/// The largest cost that is told: it stands for itself and for everything above it.
pub const MOST_STEPS: u64 = u64::MAX;
/// A limit for the cost of a list, for programs without a reason for another. A list without Both never comes near it; so many steps take less than a
/// second where the sums are small, and an hour at worst. The repository's README tells more (Lists from strangers).
pub const STEPS_RECOMMENDED: u64 = 1_000_000;

/// A sum that was read.
#[derive(Debug, Clone, Copy, PartialEq, Eq)]
pub struct ReadSum<'a> {
    /// Its entries, at the front of what was lent.
    pub sum: &'a [u8],
    /// Whether a complex step was met on the way.
    pub is_complex: bool,
    /// How many pairs of terms were multiplied. A pair is an outermost term of one factor with an outermost term of the other, whatever their
    /// coefficients are and whether or not the term that comes of them is there already.
    ///
    /// Mul of sums of a and b terms multiplies a · b pairs; Pow by a whole n multiplies those of its n - 1 products, each of the product so far with
    /// the base. A record counts each time it is run. Not counted are pairs of what lies inside two Div terms, and what records other than Mul and Pow
    /// multiply. [`u64::MAX`] stands for itself and for everything above it.
    pub pairs: u64,
}

/// The value of a list at x.
#[derive(Debug, Clone, Copy, PartialEq)]
pub struct Ran {
    pub value: f64,
    /// How many records were run, bodies included.
    pub steps: u64,
    /// The most values that there were at once, on the stack and held.
    pub peak: u64,
}

/// The refusal with this number, unless the number says that all is done.
fn checked(number: u64, place: u64) -> Result<(), Refused> {
    if number == 0 {
        return Ok(());
    }
    let refusal = Refusal::from_number(number).expect("the library returns 0 to 18");
    Err(Refused {
        refusal,
        place: size(place),
    })
}

/// A place or a count: it is of records or entries in memory.
fn size(number: u64) -> usize {
    usize::try_from(number).expect("a place or a count fits")
}

fn written(
    out: &mut [u8],
    each: usize,
    (number, [place, count]): (u64, ffi::Answer),
) -> Result<&[u8], Refused> {
    checked(number, place)?;
    Ok(&out[..size(count) * each])
}

/// From a list to the sum that it stands for.
///
/// Both inside Both, many times over, doubles the steps at each level, and no limit is set on them; [`cost`] tells them beforehand.
///
/// How much multiplying it took is told with the sum, as [`ReadSum::pairs`]: at most 4,096 pairs for one Mul and 258,048 for one Pow.
///
/// # Errors
/// Any refusal but NotHandled. A refusal has no pairs, those before it neither.
pub fn read<'a>(list: &[u8], sum: &'a mut [u8]) -> Result<ReadSum<'a>, Refused> {
    let (number, [place, count, flag, pairs]) = ffi::read(list, sum);
    checked(number, place)?;
    Ok(ReadSum {
        sum: &sum[..size(count) * ENTRY_BYTES],
        is_complex: flag != 0,
        pairs,
    })
}

/// The derivative of a sum, as a sum.
///
/// # Errors
/// BadRecord, TooDeep, what the derivative refuses, OutputRoom.
pub fn derive<'a>(sum: &[u8], out: &'a mut [u8]) -> Result<&'a [u8], Refused> {
    let answer = ffi::derive(sum, out);
    written(out, ENTRY_BYTES, answer)
}

/// The integral of a sum, as a sum.
///
/// # Errors
/// BadRecord, TooDeep, what the integral refuses, OutputRoom.
pub fn integrate<'a>(sum: &[u8], out: &'a mut [u8]) -> Result<&'a [u8], Refused> {
    let answer = ffi::integrate(sum, out);
    written(out, ENTRY_BYTES, answer)
}

/// A sum as a list, as the Rust that this library ports writes it. `is_complex` says whether its numbers are written as complex ones.
///
/// A function's argument is written on the list so far, so that x² + sin x becomes a list of x² + sin 2x; [`write_faithful`] writes one of x² + sin x.
///
/// # Errors
/// BadRecord, TooDeep, NotFinite (an imaginary part in a list of reals too), OutputRoom.
pub fn write<'a>(sum: &[u8], is_complex: bool, out: &'a mut [u8]) -> Result<&'a [u8], Refused> {
    let answer = ffi::write(sum, is_complex, out);
    written(out, RECORD_BYTES, answer)
}

/// From a list to the list of its derivative, as the Rust that this library ports writes it; [`derivative_faithful`] means what the derivative says.
///
/// # Errors
/// What reading, deriving or writing refuses.
pub fn derivative<'a>(list: &[u8], out: &'a mut [u8]) -> Result<&'a [u8], Refused> {
    let answer = ffi::derivative(list, out);
    written(out, RECORD_BYTES, answer)
}

/// From a list to the list of its integral, as the Rust that this library ports writes it; [`integral_faithful`] means what the integral says.
///
/// # Errors
/// What reading, integrating or writing refuses.
pub fn integral<'a>(list: &[u8], out: &'a mut [u8]) -> Result<&'a [u8], Refused> {
    let answer = ffi::integral(list, out);
    written(out, RECORD_BYTES, answer)
}

/// From a list to the list that undoes it.
///
/// # Errors
/// What reading or inverting refuses; NotHandled in place of what reading refuses by the algebra's rules where the list does too little.
pub fn inverse<'a>(list: &[u8], out: &'a mut [u8]) -> Result<&'a [u8], Refused> {
    let answer = ffi::inverse(list, out);
    written(out, RECORD_BYTES, answer)
}

/// A sum as a list that means what the sum says: it adds the sum's terms that aren't zero, in order, each function taken of the value of its argument, whatever the functions
/// stand for. This is proved. Of powers of x alone it is what [`write`] writes, to the byte; where functions stand behind other terms the two differ.
///
/// # Errors
/// As [`write`], and of the same sums; but as another list is written, other room may be needed (OutputRoom).
pub fn write_faithful<'a>(
    sum: &[u8],
    is_complex: bool,
    out: &'a mut [u8],
) -> Result<&'a [u8], Refused> {
    let answer = ffi::write_faithful(sum, is_complex, out);
    written(out, RECORD_BYTES, answer)
}

/// From a list to the list of its derivative, written as [`write_faithful`] does.
///
/// # Errors
/// As [`derivative`], room aside.
pub fn derivative_faithful<'a>(list: &[u8], out: &'a mut [u8]) -> Result<&'a [u8], Refused> {
    let answer = ffi::derivative_faithful(list, out);
    written(out, RECORD_BYTES, answer)
}

/// From a list to the list of its integral, written as [`write_faithful`] does.
///
/// # Errors
/// As [`integral`], room aside.
pub fn integral_faithful<'a>(list: &[u8], out: &'a mut [u8]) -> Result<&'a [u8], Refused> {
    let answer = ffi::integral_faithful(list, out);
    written(out, RECORD_BYTES, answer)
}

/// The value of a list at x. Pow raises to whole powers from 0 to 64, by products from the left, and to no others; to the power 0, and -0 counts
/// as 0, every number gives 1. (Read as a formula, that step makes the constant 0.) Sqrt gives the number nearest to the root; below zero it is NeedsMath.
///
/// # Errors
/// What the runner lacks (NotSupported, NonScalar, NonReal, NeedsMath), and what goes wrong on the way.
pub fn run(list: &[u8], x: f64) -> Result<Ran, Refused> {
    let (number, value, [place, steps, peak]) = ffi::run(list, x);
    checked(number, place)?;
    Ok(Ran { value, steps, peak })
}

/// The value of a sum at x, without a list: to the bit what [`run`] gives for the list that [`write`] makes of the sum, with `is_complex` false.
///
/// Terms whose coefficient is zero in both parts don't matter. Each other outermost term is to be x to a whole power from 0 to 64 (-0 counts as 0, and 0.5 isn't one). They are added in
/// rising power: the power 0 is x·0 + c, every other one the product from the left, times the real part of the coefficient unless that is 1. Without terms the value is x·0.
///
/// ```
/// use uplink::{bytes, encode_sum, Entry, Refusal};
/// // 60 x - 6 x^2
/// let depth = encode_sum(&[Entry::power(1.0, 60.0), Entry::power(2.0, -6.0)]);
/// assert_eq!(bytes::value(&depth, 2.5)?, 112.5);
/// let root = encode_sum(&[Entry::power(0.5, 1.0)]);
/// assert_eq!(bytes::value(&root, 9.0).map_err(|refused| refused.refusal), Err(Refusal::NeedsMath));
/// # Ok::<(), uplink::Refused>(())
/// ```
///
/// # Errors
/// In this order, all at place 0: BadRecord, TooDeep; NotFinite where x isn't finite; NeedsMath where any of the terms is no such power; NotFinite where the imaginary part of one of them
/// reaches 2^-52 (a smaller one is dropped, as in writing), or where a value formed isn't finite.
pub fn value(sum: &[u8], x: f64) -> Result<f64, Refused> {
    let (number, value, [place, _]) = ffi::value(sum, x);
    checked(number, place)?;
    Ok(value)
}

/// How many steps a reading of the list takes, known before it is read, in time linear in its records.
///
/// A step is a record that is run, counted as often as it runs, and a body is a step of its own. Where [`read`], [`derivative`], [`integral`], their faithful namesakes or [`inverse`]
/// meet no refusal in reading, they run exactly so many records; where they meet one, at most so many. A number above [`MOST_STEPS`] is told as that one.
///
/// A program that takes lists from strangers asks first, and turns away what is above a limit of its own, or above [`STEPS_RECOMMENDED`].
///
/// # Errors
/// BadRecord, TooDeep.
pub fn cost(list: &[u8]) -> Result<u64, Refused> {
    let (number, [place, steps]) = ffi::cost(list);
    checked(number, place)?;
    Ok(steps)
}
