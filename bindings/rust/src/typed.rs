//! The thirteen entries over typed lists and sums.

use crate::{
    bytes, decode_list, decode_sum, encode_list, encode_sum, Entry, Ran, Record, Refused,
    LIST_BYTES, SUM_BYTES,
};

/// A sum that was read.
#[derive(Debug, Clone, PartialEq, Eq)]
pub struct Sum {
    pub entries: Vec<Entry>,
    /// Whether a complex step was met on the way.
    pub is_complex: bool,
    /// How many pairs of outermost terms the records of Mul and Pow multiplied. What a pair is, and what isn't counted, is told at
    /// [`ReadSum::pairs`](bytes::ReadSum::pairs).
    pub pairs: u64,
}

fn records(written: &[u8]) -> Vec<Record> {
    decode_list(written).expect("what the library writes is a list")
}

fn entries(written: &[u8]) -> Vec<Entry> {
    decode_sum(written).expect("what the library writes is a sum")
}

/// From a list to the sum that it stands for: terms in rising order.
///
/// ```
/// use uplink::{read, Entry, Primitive, Record};
/// // x + x^3
/// let list = [Primitive::Dup.into(), Record::RealPush(3.0), Primitive::Pow.into(), Primitive::Add.into()];
/// let sum = read(&list)?;
/// assert_eq!(sum.entries, [Entry::power(1.0, 1.0), Entry::power(3.0, 1.0)]);
/// assert!(!sum.is_complex);
/// assert_eq!(sum.pairs, 2); // x by x, and that by x
/// # Ok::<(), uplink::Refused>(())
/// ```
///
/// The pairs tell which formula is dear to read: a sum of n terms times itself takes n · n of them.
///
/// ```
/// use uplink::{read, Primitive::*, Record, Record::RealPush};
/// let cube: Vec<Record> = vec![RealPush(1.0), Add.into(), RealPush(3.0), Pow.into()];
/// assert_eq!(read(&cube)?.pairs, 2 * 2 + 3 * 2); // (x + 1)^3
/// let square = [cube, vec![Dup.into(), Mul.into()]].concat();
/// assert_eq!(read(&square)?.pairs, 10 + 4 * 4);
/// # Ok::<(), uplink::Refused>(())
/// ```
///
/// # Errors
/// As [`bytes::read`].
pub fn read(list: &[Record]) -> Result<Sum, Refused> {
    let mut room = [0; SUM_BYTES];
    let read = bytes::read(&encode_list(list), &mut room)?;
    Ok(Sum {
        entries: entries(read.sum),
        is_complex: read.is_complex,
        pairs: read.pairs,
    })
}

/// The derivative of a sum.
///
/// # Errors
/// As [`bytes::derive`].
pub fn derive(sum: &[Entry]) -> Result<Vec<Entry>, Refused> {
    let mut room = [0; SUM_BYTES];
    bytes::derive(&encode_sum(sum), &mut room).map(entries)
}

/// The integral of a sum.
///
/// ```
/// use uplink::{integrate, Entry};
/// assert_eq!(integrate(&[Entry::power(2.0, 3.0)])?, [Entry::power(3.0, 1.0)]);
/// # Ok::<(), uplink::Refused>(())
/// ```
///
/// # Errors
/// As [`bytes::integrate`].
pub fn integrate(sum: &[Entry]) -> Result<Vec<Entry>, Refused> {
    let mut room = [0; SUM_BYTES];
    bytes::integrate(&encode_sum(sum), &mut room).map(entries)
}

/// A sum as a list, as the Rust that this library ports writes it. `is_complex` says whether its numbers are written as complex ones.
/// Where functions stand behind other terms, [`write_faithful`] writes a list that means what the sum says, and this one does not.
///
/// ```
/// use uplink::{write, Entry, Primitive, Record};
/// let list = write(&[Entry::power(1.0, 2.0)], false)?;
/// assert_eq!(list, [Record::RealPush(2.0), Primitive::Mul.into()]);
/// # Ok::<(), uplink::Refused>(())
/// ```
///
/// # Errors
/// As [`bytes::write`].
pub fn write(sum: &[Entry], is_complex: bool) -> Result<Vec<Record>, Refused> {
    let mut room = vec![0; LIST_BYTES];
    bytes::write(&encode_sum(sum), is_complex, &mut room).map(records)
}

/// From a list to the list of its derivative, as the Rust that this library ports writes it; for formulas with functions see [`derivative_faithful`].
///
/// ```
/// use uplink::{derivative, Primitive, Record};
/// let list = [Primitive::Dup.into(), Primitive::Mul.into()];
/// assert_eq!(derivative(&list)?, [Record::RealPush(2.0), Primitive::Mul.into()]);
/// # Ok::<(), uplink::Refused>(())
/// ```
///
/// # Errors
/// As [`bytes::derivative`].
pub fn derivative(list: &[Record]) -> Result<Vec<Record>, Refused> {
    let mut room = vec![0; LIST_BYTES];
    bytes::derivative(&encode_list(list), &mut room).map(records)
}

/// From a list to the list of its integral, as the Rust that this library ports writes it; for formulas with functions see [`integral_faithful`].
///
/// ```
/// use std::f64::consts::E;
/// use uplink::{integral, Primitive, Record};
/// let list = integral(&[Primitive::Reciprocal.into()])?;
/// assert_eq!(list, [Primitive::Identity.into(), Record::RealPush(E), Primitive::Log.into()]);
/// # Ok::<(), uplink::Refused>(())
/// ```
///
/// # Errors
/// As [`bytes::integral`].
pub fn integral(list: &[Record]) -> Result<Vec<Record>, Refused> {
    let mut room = vec![0; LIST_BYTES];
    bytes::integral(&encode_list(list), &mut room).map(records)
}

/// From a list to the list that undoes it.
///
/// ```
/// use uplink::{inverse, Primitive::*, Record::RealPush};
/// // 2 x + 5 is undone by taking 5 away and dividing by 2
/// let list = [RealPush(2.0), Mul.into(), RealPush(5.0), Add.into()];
/// assert_eq!(inverse(&list)?, [RealPush(5.0), Sub.into(), RealPush(2.0), Div.into()]);
/// # Ok::<(), uplink::Refused>(())
/// ```
///
/// # Errors
/// As [`bytes::inverse`].
pub fn inverse(list: &[Record]) -> Result<Vec<Record>, Refused> {
    let mut room = vec![0; LIST_BYTES];
    bytes::inverse(&encode_list(list), &mut room).map(records)
}

/// A sum as a list that means what the sum says. Of powers of x alone it is what [`write`] writes.
///
/// ```
/// use uplink::{modified, write, write_faithful, Entry, Modifier, Primitive::*, Record, Term};
/// // x^2 + sin x
/// let sin = Entry { term: Term::Sin, inside: 1, re: 1.0, im: 0.0 };
/// let sum = [Entry::power(2.0, 1.0), sin, Entry::power(1.0, 1.0)];
/// let square = modified(Modifier::On, &[(1, &[Dup.into(), Mul.into()])]);
/// let sine: Vec<Record> = vec![Identity.into(), Sin.into(), Add.into()];
/// assert_eq!(write_faithful(&sum, false)?, [square, sine].concat());
/// assert_ne!(write(&sum, false)?, write_faithful(&sum, false)?); // that one takes the sine of 2 x
/// # Ok::<(), uplink::Refused>(())
/// ```
///
/// # Errors
/// As [`bytes::write_faithful`].
pub fn write_faithful(sum: &[Entry], is_complex: bool) -> Result<Vec<Record>, Refused> {
    let mut room = vec![0; LIST_BYTES];
    bytes::write_faithful(&encode_sum(sum), is_complex, &mut room).map(records)
}

/// From a list to the list of its derivative, which means what the derivative says.
///
/// ```
/// use uplink::{derivative_faithful, modified, Modifier, Primitive::*, Record, Record::RealPush};
/// // x^2 + sin x has the derivative 2 x + cos x
/// let list = [Dup.into(), Dup.into(), Mul.into(), Flip.into(), Sin.into(), Add.into()];
/// let double = modified(Modifier::On, &[(1, &[RealPush(2.0), Mul.into()])]);
/// let cosine: Vec<Record> = vec![Identity.into(), Cos.into(), Add.into()];
/// assert_eq!(derivative_faithful(&list)?, [double, cosine].concat());
/// # Ok::<(), uplink::Refused>(())
/// ```
///
/// # Errors
/// As [`bytes::derivative_faithful`].
pub fn derivative_faithful(list: &[Record]) -> Result<Vec<Record>, Refused> {
    let mut room = vec![0; LIST_BYTES];
    bytes::derivative_faithful(&encode_list(list), &mut room).map(records)
}

/// From a list to the list of its integral, which means what the integral says.
///
/// ```
/// use uplink::{integral_faithful, Primitive::*, Record::RealPush};
/// // 1 - cos x has the integral x - sin x
/// let list = integral_faithful(&[Cos.into(), Not.into()])?;
/// assert_eq!(list, [Dup.into(), Identity.into(), Sin.into(), RealPush(-1.0), Mul.into(), Add.into()]);
/// # Ok::<(), uplink::Refused>(())
/// ```
///
/// # Errors
/// As [`bytes::integral_faithful`].
pub fn integral_faithful(list: &[Record]) -> Result<Vec<Record>, Refused> {
    let mut room = vec![0; LIST_BYTES];
    bytes::integral_faithful(&encode_list(list), &mut room).map(records)
}

/// The value of a list at x, with steps and peak. What Pow and Sqrt do is told at [`bytes::run`].
///
/// ```
/// use uplink::{run, Primitive, Record, Refusal};
/// let squared = [Record::RealPush(2.0), Primitive::Pow.into()];
/// assert_eq!(run(&squared, 3.0)?.value, 9.0);
/// let to_nought = [Record::RealPush(0.0), Primitive::Pow.into()];
/// assert_eq!(run(&to_nought, 3.0)?.value, 1.0);
/// let root = [Primitive::Sqrt.into()];
/// assert_eq!(run(&root, 9.0)?.value, 3.0);
/// let sine = [Primitive::Sin.into()];
/// assert_eq!(run(&sine, 9.0).map_err(|refused| refused.refusal), Err(Refusal::NeedsMath));
/// # Ok::<(), uplink::Refused>(())
/// ```
///
/// # Errors
/// As [`bytes::run`].
pub fn run(list: &[Record], x: f64) -> Result<Ran, Refused> {
    bytes::run(&encode_list(list), x)
}

/// The value of a sum at x, without a list: to the bit what [`run`] gives for the list that [`write`] makes of it. Which terms have one is told at [`bytes::value`].
///
/// ```
/// use uplink::{run, value, write, Entry, Refusal};
/// // 60 x - 6 x^2
/// let depth = [Entry::power(1.0, 60.0), Entry::power(2.0, -6.0)];
/// assert_eq!(value(&depth, 0.1)?, run(&write(&depth, false)?, 0.1)?.value);
/// let root = [Entry::power(0.5, 1.0)];
/// assert_eq!(value(&root, 9.0).map_err(|refused| refused.refusal), Err(Refusal::NeedsMath));
/// # Ok::<(), uplink::Refused>(())
/// ```
///
/// # Errors
/// As [`bytes::value`].
pub fn value(sum: &[Entry], x: f64) -> Result<f64, Refused> {
    bytes::value(&encode_sum(sum), x)
}

/// How many steps a reading of the list takes, known before it is read. What a step is, is told at [`bytes::cost`].
///
/// ```
/// use uplink::{cost, modified, Modifier, Primitive, MOST_STEPS, STEPS_RECOMMENDED};
/// assert_eq!(cost(&[Primitive::Dup.into(), Primitive::Mul.into()])?, 2);
/// // Both runs its body twice: a stranger's list of 127 records takes longer than anyone can wait
/// let nested = (0..63).fold(vec![Primitive::Neg.into()], |list, _| modified(Modifier::Both, &[(0, &list)]));
/// assert_eq!(cost(&nested)?, MOST_STEPS);
/// assert!(cost(&nested)? > STEPS_RECOMMENDED); // so it is turned away
/// # Ok::<(), uplink::Refused>(())
/// ```
///
/// # Errors
/// As [`bytes::cost`].
pub fn cost(list: &[Record]) -> Result<u64, Refused> {
    bytes::cost(&encode_list(list))
}
