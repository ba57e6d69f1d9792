//! What `dive help` says.

/// A command or topic, how it is called, and what it does.
#[derive(Debug)]
pub struct Command {
    pub name: &'static str,
    usage: &'static str,
    about: &'static str,
}

pub const OVERVIEW: &str = "\
dive: formulas of dives as lists of steps

  dive show FILE                       the list in words, numbered by place
  dive assemble FILE -o OUT            from text to records
  dive text FILE                       from records to steps in words
  dive cost FILE                       how many steps it takes to read the list
  dive read FILE                       the formula that the list stands for
  dive derivative FILE                 the list of its derivative: speed
  dive integral FILE                   the list of its integral
  dive inverse FILE                    the list that undoes it
  dive write FILE                      the same formula, written anew
  dive run FILE X                      the list's value at x
  dive value FILE X                    the formula's value at x
  dive table FILE FROM TO STEP         minutes, depth and speed
  dive plot FILE FROM TO STEP -o OUT   the same as a picture (SVG)
  dive help COMMAND                    more about a command
  dive help formula                    formulas, as in -e '60 x - 6 x^2'
  dive help notation                   steps in words
  dive help writers                    why there are two writers of lists

FILE is a list of records (24 bytes each), steps in words, or a formula: a file
with a zero byte in it is taken as records, any other as text. - is what comes
from the standard input. Every command takes -e FORMULA in the place of FILE:
dive table -e '60 x - 6 x^2' 0 10 1

A list that takes more than ten million steps to read is read only with --long:
`dive help cost`.

derivative, integral and write print a list that means what the formula says.
With --as-rust they print the one that the Rust writes: `dive help writers`.

Exit codes: 0 done, 1 refused, 2 wrong usage or a file that can't be read or
written.
";

pub const COMMANDS: [Command; 16] = [
    Command {
        name: "show",
        usage: "show FILE",
        about: "\
Shows the list in words, one record to a line: its place, counted from 0, and
what it does to the stack of values. The stack starts with x, the minutes of
the dive. What lies inside a record is set to the right below it.
",
    },
    Command {
        name: "assemble",
        usage: "assemble FILE -o OUT",
        about: "\
Writes the list in FILE to OUT as records, 24 bytes each. A mistake in the text
is shown with its line and column. See `dive help notation` and `dive help
formula`.
",
    },
    Command {
        name: "text",
        usage: "text FILE [-o OUT]",
        about: "\
Prints the list in FILE as steps in words, or writes these to OUT. Every number
is written so that it reads back bit for bit: assembled again, the text gives
the same bytes.
",
    },
    Command {
        name: "cost",
        usage: "cost FILE",
        about: "\
Prints how many steps it takes to read the list as a formula, without reading
it. A step is a record that is run, as often as it runs; a body is a step of its
own. Both runs its body twice, so a Both inside a Both doubles the steps, and a
short list can take longer than anyone can wait. More than 2^64 - 2 steps are
not told apart: `more than 18 quintillion` is printed for them.

Commands that read the list (read, derivative, integral, inverse, write, value,
table, plot) ask for this number first. Above ten million they print it and
stop, unless --long is given.

Example: 62 Boths, one inside the other

  dive cost samples/hostile.txt        # 18446744073709551613
  dive read samples/hostile.txt        # refused at once
",
    },
    Command {
        name: "read",
        usage: "read FILE [-o OUT] [--long]",
        about: "\
Reads the list as a formula, a sum of terms, and prints it, with the coefficient
of each term. With -o the sum is written to OUT as entries, 32 bytes each, and
nothing is printed.

Under the formula stands how many pairs of terms were multiplied to get there: a
pair is a term of one factor with a term of the other. Mul of a and b terms
takes a times b pairs. Pow by a whole n takes those of its n - 1 products, each
of the product so far with the base, whatever falls together or comes to 0. Both
counts its body twice. What lies inside two quotients 1/(..) isn't counted, nor
what other steps multiply.

So a square of n terms is dear, n times n pairs, and a power of a sum of many
terms is dearest: up to 258,048 pairs for one Pow. A power of x alone is cheap,
n - 1 pairs, so raise x before it is multiplied by a sum, and not the sum by x
again and again. Adding takes no pairs.

Example: one formula in two lists

  dive read samples/dear.txt           # 151 pairs: a sum times x, eight times
  dive read samples/cheap.txt          # 87 pairs: the sum times x^8, once
",
    },
    Command {
        name: "derivative",
        usage: "derivative FILE [-o OUT] [--as-rust] [--long]",
        about: "\
Prints the derivative of the list's formula, and the list of steps that computes
it: for a list of depth that is the list of speed. With -o the list is written
to OUT as records, and nothing is printed. --as-rust: see `dive help writers`.
",
    },
    Command {
        name: "integral",
        usage: "integral FILE [-o OUT] [--as-rust] [--long]",
        about: "\
Prints the integral of the list's formula, and the list of steps that computes
it. With -o the list is written to OUT as records, and nothing is printed.
--as-rust: see `dive help writers`.
",
    },
    Command {
        name: "inverse",
        usage: "inverse FILE [-o OUT] [--long]",
        about: "\
Prints the list of steps that undoes the list: from a depth to the minute. With
-o it is written to OUT as records, and nothing is printed.
",
    },
    Command {
        name: "write",
        usage: "write FILE [-o OUT] [--as-rust] [--long]",
        about: "\
Prints the list's formula, and a list of steps that is written from it: terms in
rising order, and On the only modifier, so that the page can run it where all
powers are whole. With -o the list is written to OUT as records, and nothing is
printed. --as-rust: see `dive help writers`.
",
    },
    Command {
        name: "run",
        usage: "run FILE X",
        about: "\
Runs the list at x = X, as the page does, and prints the value, how many records
were run (steps), and the most values that there were at once (peak).

The runner adds, subtracts, multiplies and divides real numbers, takes square
roots of numbers that aren't below zero, raises to whole powers from 0 to 64,
and has the modifier On. Anything else is refused, although it can be read and
derived.

Pow gives 1 for the power 0, whatever number is raised. Read as a formula the
same step makes the constant 0, and the derivative goes by that.
",
    },
    Command {
        name: "value",
        usage: "value FILE X [--long]",
        about: "\
Reads the list as a formula, and prints the formula's value at x = X. No list is
written or run for it: the terms that aren't zero are added in rising power. If
the list has no complex step, this is to the bit what `dive run` gives for the
list that `dive write` writes.

A value is formed of whole powers of x from 0 to 64. Any other term is refused,
a root or a sine for example. Imaginary parts below 2^-52 are left out, larger
ones are refused.

The list itself may give something else when it is run, or nothing, and then a
remark says so, and why if that is known: the power 0 gives 1 where it is run
and 0 where it is read; the root of x^2 is the magnitude of x where it is run
and x where it is read; other steps round otherwise; and not every step that is
read is run.

Example

  dive value samples/fork.txt 5        # 150, although Fork isn't run
  dive value samples/nought.txt 0      # 0, where `dive run` gives 5
  dive value samples/turn.txt -4       # 210, where `dive run` gives 90
",
    },
    Command {
        name: "table",
        usage: "table FILE FROM TO STEP [--csv] [--long]",
        about: "\
Prints depth (the list's value, in metres) and speed (its derivative's value, in
metres per minute, above 0 on the way down) at the minutes FROM, FROM + STEP and
so on up to TO. Metres are rounded to two digits; --csv prints every number in
full, parted by commas. Where there is no value there is a dash, and below the
table it is said why.

The list that is run for the speed is the one that `dive derivative` prints
without --as-rust. Of powers of x alone the Rust's is the same.
",
    },
    Command {
        name: "plot",
        usage: "plot FILE FROM TO STEP -o OUT [--long]",
        about: "\
Writes the table of `dive table` to OUT as a picture (SVG): depth above, growing
downward, and speed below, over the same minutes.
",
    },
    Command {
        name: "writers",
        usage: "help writers",
        about: "\
There are two writers, which make a list of steps from a formula.

derivative, integral and write use the one whose lists mean what the formula
says: run, such a list adds the formula's terms in order, each function taken of
the value of its argument. This is proved.

The other one is that of the Rust which the library ports; --as-rust prints its
list. It writes a function's argument on the list so far. So where a function
stands behind other terms its argument comes out wrong: x^2 + sin x has the
derivative 2 x + cos x, and the Rust's list computes 2 x + cos 2x. It is kept to
the byte, so that a list can be compared with the Rust's, and a remark says what
it computes.

Of powers of x alone, the usual fit of a dive, both write the same bytes. Table
and plot run the list that means what the formula says.

Example

  dive derivative samples/swell.txt
  dive derivative samples/swell.txt --as-rust
",
    },
    Command {
        name: "formula",
        usage: "help formula",
        about: "\
A formula in x, behind -e or --expression in the place of FILE, or in a file:

  60 x - 6 x^2        -x^2 + 3        2(x+1)        x sqrt(x)        1/(1 + x)

Numbers are 3, 0.5 or 2.5e-3. ^ is done first, from the right; then a minus
before something, so that -x^2 is -(x^2); then * and /, then + and -, from the
left. × · − ² ³ are * * - ^2 ^3. Without a sign between, x, a function or ( is
multiplied: 60 x, 2(x+1). The functions sqrt sin cos exp ln log2 log10 take what
is in parentheses, or one number or x. # starts a comment.

What could be two things is refused: 1/2 x, which is (1/2) x or 1/(2 x); sin 2 x
and sin x^2; a number behind something, as in x 2.

Each sign is a step, and nothing is worked out beforehand:

  number, + - * / ^     push, Add, Sub, Mul, Div, Pow
  - before something    push of the number below 0, before anything else Neg
  sqrt sin cos exp ln log2 log10       Sqrt Sin Cos Exp Ln Log2 Log10

Terms are computed in the order written. In A - B the steps of A come first,
then those of B, then Sub; x is copied by Dup or Over, or turned to the top by
Flip, where B needs it. A number without x that is added to or multiplied by
what stands behind it comes after that: 60 x is push 60, Mul. A formula without
x starts with Pop. `dive show -e FORMULA` shows the steps. A list has at most
2,048, and a formula at most 100 parentheses inside each other.

A file is steps if there is a step's name, push or a brace in it, or nothing at
all; else it is a formula. Numbers alone could be either and are refused: write
push 3, or (3).

What is read is printed as a formula, too, and read again it is the same sum to
the bit, with these exceptions: complex numbers, sinh, cosh and logarithms to
other bases have no formula; a function times a number isn't read; and the sign
of an imaginary part of 0 isn't kept.

Example

  dive show -e '60 x - 6 x^2'          # Dup, push 60, Mul, Flip, push 2, ..
  dive assemble -e '60 x - 6 x^2' -o parabola.list
",
    },
    Command {
        name: "notation",
        usage: "help notation",
        about: "\
Steps stand one after the other, parted by spaces, new lines or commas. # starts
a comment, up to the end of the line. Capitals matter.

  push 3                  pushes a number: 3, -0.5, 2.5e-3, E (e, 2.718..), inf;
                          bits:7ff8000000000000 is the number with these bits
  push 2 + 3i             pushes a complex number, with spaces round the sign
  Dup Flip Pop Over Identity                 values copied, turned, taken away
  Add Sub Mul Div Pow Neg Not Sqrt Reciprocal                     arithmetic
  Exp Exp2 Exp10 Log Ln Log2 Log10 Sin Cos                        functions
  Complex                 b + a i, of the top a and the value b below it
  Max Root SinH CosH      written in results, not read
  On { push 2, Mul }      a modifier with its body, in braces: On Dip Gap By
                          Both have one, Bracket two, Fork any number
  Fork {2: Add } { Neg }  a body of other than one argument says so
  Run { Dup, Mul }        steps in a row, as of a function

The other kinds of records by name, with their numbers: ArrayPush (3), OtherPush
(4), CustomInverse { .. } (9), Obverse (10), NoNormal (11), UnderMarker (12),
AnythingElse (13). `Primitive 99` and `Modifier 99` are those with a code that
has no name.

Example: a dive of ten minutes to 150 metres, 60 x - 6 x^2

  Dup, push 2, Pow, push -6, Mul   # -6 x^2; x itself is still below it
  Flip, push 60, Mul               # 60 x
  Add
",
    },
];

/// A command's or topic's text.
pub fn of(name: &str) -> Option<String> {
    let command = COMMANDS.iter().find(|command| command.name == name)?;
    Some(format!("dive {}\n\n{}", command.usage, command.about))
}

/// What there is help on besides commands.
const TOPICS: [&str; 3] = ["writers", "formula", "notation"];

/// How a command is called.
pub fn usage(name: &str) -> Option<&'static str> {
    let command = COMMANDS
        .iter()
        .find(|command| command.name == name && !TOPICS.contains(&name))?;
    Some(command.usage)
}

#[cfg(test)]
mod tests {
    use super::*;

    #[test]
    fn every_command_is_listed_and_fits_a_terminal() {
        for command in &COMMANDS {
            assert!(OVERVIEW.contains(command.name), "{}", command.name);
            let text = of(command.name).expect("a text");
            assert!(
                text.lines().all(|line| line.chars().count() <= 80),
                "{}",
                command.name
            );
        }
        assert!(OVERVIEW.lines().all(|line| line.len() <= 80));
    }

    #[test]
    fn the_notation_lists_every_name() {
        let text = of("notation").expect("a text");
        let primitives = uplink::Primitive::LISTED
            .iter()
            .filter_map(|primitive| primitive.name());
        let modifiers = uplink::Modifier::LISTED
            .iter()
            .filter_map(|modifier| modifier.name());
        let others = crate::notation::PLAIN
            .iter()
            .chain(&crate::notation::HOLDING)
            .map(|(name, _)| *name);
        for name in primitives.chain(modifiers).chain(others) {
            let is_there = text
                .split(|part: char| !part.is_ascii_alphanumeric())
                .any(|word| word == name);
            assert!(is_there, "{name}");
        }
    }

    #[test]
    fn the_formulas_are_formulas() {
        let text = of("formula").expect("a text");
        let (_, shown) = text.split_once("\n\n  ").expect("formulas");
        let (shown, _) = shown.split_once('\n').expect("a line");
        for formula in shown.split("    ").filter(|formula| !formula.is_empty()) {
            assert!(crate::expression::parse(formula).is_ok(), "{formula}");
        }
        for (name, step) in crate::expression::FUNCTIONS {
            let is_told = |word: &str| text.split_whitespace().any(|other| other == word);
            assert!(
                is_told(name) && is_told(step.name().expect("a name")),
                "{name}"
            );
        }
    }

    #[test]
    fn the_example_is_a_list() {
        let text = of("notation").expect("a text");
        let (_, example) = text.split_once("60 x - 6 x^2\n").expect("an example");
        assert!(crate::notation::parse(example).is_ok());
    }
}
