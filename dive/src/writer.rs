//! The two writers of lists, of which `dive help writers` tells.

use uplink::{bytes, Refused, SUM_BYTES};

/// Which writer makes a list of a formula.
#[derive(Debug, Clone, Copy, PartialEq, Eq)]
pub enum Writer {
    /// Its lists mean what the formula says.
    Faithful,
    /// The one of the Rust that the library ports.
    AsRust,
}

type List<'a> = Result<&'a [u8], Refused>;

impl Writer {
    /// The list of the derivative of a list.
    pub fn derivative<'a>(self, list: &[u8], room: &'a mut [u8]) -> List<'a> {
        match self {
            Writer::Faithful => bytes::derivative_faithful(list, room),
            Writer::AsRust => bytes::derivative(list, room),
        }
    }

    /// The list of the integral of a list.
    pub fn integral<'a>(self, list: &[u8], room: &'a mut [u8]) -> List<'a> {
        match self {
            Writer::Faithful => bytes::integral_faithful(list, room),
            Writer::AsRust => bytes::integral(list, room),
        }
    }

    /// The list of the formula that a list stands for.
    pub fn anew<'a>(self, list: &[u8], room: &'a mut [u8]) -> List<'a> {
        let mut sum = [0; SUM_BYTES];
        let found = bytes::read(list, &mut sum)?;
        match self {
            Writer::Faithful => bytes::write_faithful(found.sum, found.is_complex, room),
            Writer::AsRust => bytes::write(found.sum, found.is_complex, room),
        }
    }
}
