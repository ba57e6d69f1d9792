//! What the steps of a formula compute, held against plain arithmetic on random formulas.

use uplink::run;

use super::strange::Random;

/// A formula's tree, made by the test and evaluated without steps.
enum Part {
    Number(f64),
    X,
    Neg(Box<Part>),
    Sqrt(Box<Part>),
    /// A function that isn't run.
    Unrun(&'static str, Box<Part>),
    Both(char, Box<Part>, Box<Part>),
}

const NUMBERS: [f64; 10] = [0.0, 1.0, 2.0, 3.0, 0.1, 0.7, 60.0, 2.5e-3, 1e200, 5e-324];

fn part(random: &mut Random, depth: usize) -> Part {
    let inner = |random: &mut Random| Box::new(part(random, depth - 1));
    match if depth == 0 {
        random.below(2)
    } else {
        random.below(12)
    } {
        0 => Part::Number(NUMBERS[random.below(NUMBERS.len())]),
        1 | 2 => Part::X,
        3 => Part::Neg(inner(random)),
        4 => Part::Sqrt(inner(random)),
        5 => match random.below(20) {
            0 => Part::Unrun(
                ["sin", "cos", "exp", "ln", "log2", "log10"][random.below(6)],
                inner(random),
            ),
            _ => power(inner(random), random),
        },
        _ => Part::Both(
            ['+', '-', '*', '/'][random.below(4)],
            inner(random),
            inner(random),
        ),
    }
}

/// A part to a whole power, or now and then to another one, which isn't run.
fn power(base: Box<Part>, random: &mut Random) -> Part {
    let exponent = [0.0, 1.0, 2.0, 3.0, 5.0, 64.0, 65.0, 0.5][random.below(8)];
    Part::Both('^', base, Box::new(Part::Number(exponent)))
}

/// The value at x, by plain arithmetic in the order written; none where the runner refuses.
fn value(part: &Part, x: f64) -> Option<f64> {
    let value = match part {
        Part::Number(number) => *number,
        Part::X => x,
        Part::Neg(inner) => -value(inner, x)?,
        Part::Sqrt(inner) => value(inner, x).filter(|inner| *inner >= 0.0)?.sqrt(),
        Part::Unrun(..) => return None,
        Part::Both(sign, left, right) => both(*sign, value(left, x)?, value(right, x)?)?,
    };
    value.is_finite().then_some(value)
}

fn both(sign: char, left: f64, right: f64) -> Option<f64> {
    Some(match sign {
        '+' => left + right,
        '-' => left - right,
        '*' => left * right,
        '/' => left / right,
        _ if right.fract() == 0.0 && (0.0..=64.0).contains(&right) => {
            let times =
                |product: Option<f64>, _| Some(product.map_or(left, |so_far| so_far * left));
            (0..right as usize).fold(None, times).unwrap_or(1.0)
        }
        _ => return None,
    })
}

/// How tightly a part is written: sums 0, products 1, a minus 2, powers 3, the smallest 4.
fn tightness(part: &Part) -> usize {
    match part {
        Part::Both('+' | '-', ..) => 0,
        Part::Both('*' | '/', ..) => 1,
        Part::Neg(_) => 2,
        Part::Both(..) => 3,
        _ => 4,
    }
}

/// A part as text, in parentheses where it isn't as tight as it must be, and now and then where it is.
fn written(part: &Part, least: usize, random: &mut Random) -> String {
    if tightness(part) < least || random.below(12) == 0 {
        return format!("({})", plain(part, random));
    }
    plain(part, random)
}

fn plain(part: &Part, random: &mut Random) -> String {
    match part {
        Part::Number(number) => crate::numbers::decimal(*number),
        Part::X => "x".into(),
        Part::Neg(inner) => {
            ["-", "−", "- "][random.below(3)].to_string() + &written(inner, 2, random)
        }
        Part::Sqrt(inner) => format!("sqrt({})", plain(inner, random)),
        Part::Unrun(name, inner) => format!("{name} ({})", plain(inner, random)),
        Part::Both('^', base, exponent) => raised(base, exponent, random),
        Part::Both(sign, left, right) => {
            let at = usize::from(matches!(sign, '*' | '/'));
            let (left_text, right_text) =
                (written(left, at, random), written(right, at + 1, random));
            let may_join = *sign == '*' && !matches!(**left, Part::Both('/', ..));
            let is_joined = may_join && right_text.starts_with(['x', '(', 's', 'c', 'e', 'l']);
            let sign_text = if is_joined && random.below(2) == 0 {
                " ".into()
            } else {
                signed(*sign, random)
            };
            left_text + &sign_text + &right_text
        }
    }
}

fn raised(base: &Part, exponent: &Part, random: &mut Random) -> String {
    let base = written(base, 4, random);
    match exponent {
        Part::Number(2.0) if random.below(2) == 0 => base + "²",
        Part::Number(3.0) if random.below(2) == 0 => base + "³",
        _ => base + "^" + &plain(exponent, random),
    }
}

/// A sign as it may be written.
fn signed(sign: char, random: &mut Random) -> String {
    match sign {
        '*' => ["*", " * ", "×", "·", " · "][random.below(5)].into(),
        '-' => ["-", " - ", " − "][random.below(3)].into(),
        sign => [format!("{sign}"), format!(" {sign} ")][random.below(2)].clone(),
    }
}

#[test]
fn random_formulas_run_as_plain_arithmetic() {
    let mut random = Random(25);
    let (mut ran, mut refused) = (0, 0);
    for _ in 0..20_000 {
        let depth = 1 + random.below(6);
        let part = part(&mut random, depth);
        let text = plain(&part, &mut random);
        let list = super::parse(&text)
            .unwrap_or_else(|fault| panic!("{text}: {fault:?}"))
            .list;
        for x in [2.0, -1.3, 0.0, -0.0, 0.7, 1e155] {
            let expected = value(&part, x).map(f64::to_bits);
            let found = run(&list, x).ok().map(|found| found.value.to_bits());
            assert_eq!(found, expected, "{text} at {x}");
            *(if found.is_some() {
                &mut ran
            } else {
                &mut refused
            }) += 1;
        }
    }
    assert!(
        ran > 60_000 && refused > 10_000,
        "{ran} ran, {refused} were refused"
    );
}

#[test]
fn products_without_a_sign_are_products() {
    for (joined, signed) in [
        ("60 x - 6 x^2", "60*x - 6*x^2"),
        ("2(x+1)(x-1)", "2*(x+1)*(x-1)"),
        ("x sqrt x", "x*sqrt(x)"),
        ("-3 x^2 x", "-3*x^2*x"),
        ("2 x/3", "2*x/3"),
        ("sin x cos x", "sin(x)*cos(x)"),
    ] {
        assert_eq!(
            super::parse(joined).map(|found| found.list),
            super::parse(signed).map(|found| found.list)
        );
    }
}
