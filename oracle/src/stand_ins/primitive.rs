//! The primitives and modifiers that the algebra reads or writes.

use std::fmt;

macro_rules! primitives {
    ($(#[$attr:meta])* $name:ident { $($prim:ident $code:literal $args:literal $outputs:literal),* $(,)? }) => {
        $(#[$attr])*
        #[derive(Debug, Clone, Copy, PartialEq, Eq)]
        pub enum $name {
            $($prim,)*
            /// Any other one, known by its code byte alone.
            Unlisted(u8),
        }

        impl $name {
            /// The primitive that a record's code byte stands for, if it is one of these.
            pub fn from_code(code: u8) -> Option<Self> {
                match code {
                    $($code => Some(Self::$prim),)*
                    _ => None,
                }
            }
            pub fn code(self) -> u8 {
                match self {
                    $(Self::$prim => $code,)*
                    Self::Unlisted(code) => code,
                }
            }
            /// How many values it takes, where that is settled.
            pub fn args(self) -> Option<usize> {
                match self {
                    $(Self::$prim => Some($args),)*
                    Self::Unlisted(_) => None,
                }
            }
            /// How many values it leaves, where that is settled.
            pub fn outputs(self) -> Option<usize> {
                match self {
                    $(Self::$prim => Some($outputs),)*
                    Self::Unlisted(_) => None,
                }
            }
            pub fn format(self) -> Self {
                self
            }
        }

        impl fmt::Display for $name {
            fn fmt(&self, f: &mut fmt::Formatter<'_>) -> fmt::Result {
                write!(f, "{self:?}")
            }
        }
    };
}

primitives!(
    /// Primitives of the language. Its modifiers are at the end; their codes are
    /// the modifier codes plus 64, since a record tells the two apart by kind.
    Primitive {
        Identity 1 1 1,
        Pop 2 1 0,
        Dup 3 1 2,
        Flip 4 2 2,
        Neg 5 1 1,
        Not 6 1 1,
        Sqrt 7 1 1,
        Add 8 2 1,
        Sub 9 2 1,
        Mul 10 2 1,
        Div 11 2 1,
        Pow 12 2 1,
        Exp 13 1 1,
        Sin 14 1 1,
        Cos 15 1 1,
        Reciprocal 16 1 1,
        Complex 17 2 1,
        Max 18 2 1,
        SinH 19 1 1,
        CosH 20 1 1,
        Dip 65 0 0,
        Gap 66 0 0,
        On 67 0 0,
        By 68 0 0,
        Both 69 0 0,
        Bracket 70 0 0,
        Fork 71 0 0,
    }
);

primitives!(
    /// Primitives of the implementation, which no program spells out.
    ImplPrimitive {
        Exp2 32 1 1,
        Exp10 33 1 1,
        Log 34 2 1,
        Ln 35 1 1,
        Log2 36 1 1,
        Log10 37 1 1,
        Over 38 2 3,
        Root 39 2 1,
    }
);

/// What is added to a modifier's code to make the code of its [`Primitive`].
const MODIFIER: u8 = 64;

impl Primitive {
    /// The modifier that a record's code byte stands for.
    pub fn modifier(code: u8) -> Self {
        match code {
            1..=7 => Self::from_code(MODIFIER + code).expect("seven modifiers"),
            _ => Self::Unlisted(code),
        }
    }
    /// The code byte of this modifier in a record.
    pub fn modifier_code(self) -> u8 {
        match self {
            Self::Unlisted(code) => code,
            listed => listed.code() - MODIFIER,
        }
    }
}
