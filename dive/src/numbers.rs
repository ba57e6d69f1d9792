//! Numbers as text, both ways, bit for bit.

use std::f64::consts::E;

/// A number as text that [`parse`] reads back to the same bits.
pub fn text(number: f64) -> String {
    if number.is_nan() {
        return format!("bits:{:016x}", number.to_bits());
    }
    if number == E {
        return "E".into();
    }
    decimal(number)
}

/// A number in decimal, in as few digits as tell it apart.
pub fn decimal(number: f64) -> String {
    let size = number.abs();
    if size == 0.0 || size.is_infinite() || (1e-5..1e15).contains(&size) {
        format!("{number}")
    } else {
        format!("{number:e}")
    }
}

/// The number that a word stands for.
///
/// # Errors
/// A sentence that says what is wrong with it.
pub fn parse(word: &str) -> Result<f64, String> {
    match word {
        "E" => Ok(E),
        "inf" => Ok(f64::INFINITY),
        "-inf" => Ok(f64::NEG_INFINITY),
        _ => match word.strip_prefix("bits:") {
            Some(digits) => parse_bits(digits),
            None => parse_decimal(word),
        },
    }
}

fn parse_bits(digits: &str) -> Result<f64, String> {
    let is_whole = digits.len() == 16 && digits.bytes().all(|digit| digit.is_ascii_hexdigit());
    match u64::from_str_radix(digits, 16) {
        Ok(bits) if is_whole => Ok(f64::from_bits(bits)),
        _ => Err("after `bits:` come 16 hexadecimal digits".into()),
    }
}

fn parse_decimal(word: &str) -> Result<f64, String> {
    let unsigned = word.strip_prefix(['+', '-']).unwrap_or(word);
    let starts = unsigned.starts_with(|first: char| first.is_ascii_digit() || first == '.');
    match word.parse::<f64>() {
        Ok(number) if starts && number.is_finite() => Ok(number),
        Ok(_) if starts => Err(format!(
            "{word} is too large for a binary64 number; write inf if that is meant"
        )),
        _ => Err(format!(
            "`{word}` is no number; numbers look like 3, -0.5, 2.5e-3, E, inf or bits:7ff8000000000000"
        )),
    }
}

#[cfg(test)]
mod tests {
    use super::*;

    #[test]
    fn every_sort_of_number_reads_back_bit_for_bit() {
        let mut bits = 1;
        let mut numbers = vec![0.0, -0.0, 3.0, -0.5, E, -E, 1e15, 1e-5, 5e-324, f64::MAX];
        numbers.extend([f64::INFINITY, f64::NEG_INFINITY, f64::NAN, -f64::NAN]);
        numbers.push(f64::from_bits(0x7ff0_0000_0000_0001));
        for _ in 0..20_000 {
            bits = u64::wrapping_mul(bits, 6_364_136_223_846_793_005)
                .wrapping_add(1_442_695_040_888_963_407);
            numbers.push(f64::from_bits(bits ^ bits >> 29));
        }
        for number in numbers {
            let word = text(number);
            let back = parse(&word).expect("a number's text is a number");
            assert_eq!(back.to_bits(), number.to_bits(), "{word}");
        }
    }

    #[test]
    fn numbers_are_short() {
        let cases = [
            (3.0, "3"),
            (-0.0, "-0"),
            (0.1, "0.1"),
            (1e200, "1e200"),
            (E, "E"),
            (-2.5e-7, "-2.5e-7"),
        ];
        for (number, word) in cases {
            assert_eq!(text(number), word);
        }
    }

    #[test]
    fn what_is_no_number_is_said() {
        assert!(parse("1e400").unwrap_err().contains("too large"));
        assert!(parse("nan").unwrap_err().contains("no number"));
        assert!(parse("infinity").unwrap_err().contains("no number"));
        assert!(parse("bits:12").unwrap_err().contains("16 hexadecimal"));
        assert!(parse("bits:+123456789abcdef")
            .unwrap_err()
            .contains("16 hexadecimal"));
        assert!(parse("").is_err());
        assert!(parse("-").is_err());
    }
}
