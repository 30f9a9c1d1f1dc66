//! How tightly operators bind where a line is broken (C-18).

use alloc::vec::Vec;

/// An operator that a line may be broken before.
#[derive(Clone, Copy, Debug, PartialEq, Eq, Hash)]
#[rustfmt::skip]
pub enum Operator {
    /// `||`
    OrOr,
    /// `^^`
    XorXor,
    /// `&&`
    AndAnd,
    /// `|`
    Or,
    /// `^`
    Xor,
    /// `&`
    And,
    /// `==`
    Equal,
    /// `!=`
    NotEqual,
    /// `<`
    Less,
    /// `>`
    Greater,
    /// `<=`
    LessEqual,
    /// `>=`
    GreaterEqual,
    /// `<<`
    ShiftLeft,
    /// `>>`
    ShiftRight,
    /// `..`
    Range,
    /// `+`
    Add,
    /// `-`
    Subtract,
    /// `*`
    Multiply,
    /// `/`
    Divide,
    /// `%`
    Remainder,
    /// `**`
    Power,
}

impl Operator {
    /// All operators, in the order of the table of strengths.
    #[rustfmt::skip]
    pub const ALL: [Self; 21] = [
        Self::OrOr, Self::XorXor, Self::AndAnd, Self::Or, Self::Xor, Self::And, Self::Equal, Self::NotEqual,
        Self::Less, Self::Greater, Self::LessEqual, Self::GreaterEqual, Self::ShiftLeft, Self::ShiftRight,
        Self::Range, Self::Add, Self::Subtract, Self::Multiply, Self::Divide, Self::Remainder, Self::Power,
    ];

    /// The operator as it is written.
    ///
    /// ```
    /// use wirescript_format::Operator;
    ///
    /// assert_eq!(Operator::Power.symbol(), "**");
    /// ```
    #[must_use]
    pub fn symbol(self) -> &'static str {
        const SYMBOLS: [&str; 21] = [
            "||", "^^", "&&", "|", "^", "&", "==", "!=", "<", ">", "<=", ">=", "<<", ">>", "..",
            "+", "-", "*", "/", "%", "**",
        ];
        SYMBOLS[self as usize]
    }
}

/// A strength for each [`Operator`]: a line that is too wide is broken before its loosest ones first, and never
/// before one of strength 0. The strongest is 15. By default they are the built-in ones, 1 to 12.
///
/// ```
/// use wirescript_format::{Operator, Options, Strengths, format};
///
/// let options = Options::new().width(Some(6));
/// assert_eq!(format("a + b*c", &options)?.text, "a\n  + b*c\n");
/// let strengths = Strengths::new().with(Operator::Add, 13);
/// let options = options.strengths(strengths);
/// assert_eq!(format("a + b*c", &options)?.text, "a + b\n  *c\n");
/// # Ok::<(), wirescript_format::Refusal>(())
/// ```
///
/// Bytes, as a table from elsewhere has them, are taken as they are: a field of 4 bits for each operator, the upper
/// ones of a byte first, then four zero bits, 11 bytes in all. Other tables are refused by the call.
#[derive(Clone, Debug, PartialEq, Eq, Hash)]
pub struct Strengths(Vec<u8>);

impl Strengths {
    /// The built-in strengths.
    pub(crate) const BUILT_IN: [u8; 11] = [
        0x11, 0x23, 0x45, 0x66, 0x77, 0x77, 0x88, 0x9a, 0xab, 0xbb, 0xc0,
    ];

    /// The built-in strengths.
    #[must_use]
    pub fn new() -> Self {
        Self::from(Self::BUILT_IN)
    }

    /// The same with another strength for an operator; one over 15 counts as 15. A table that is too short for
    /// the operator stays as it is.
    #[must_use]
    pub fn with(mut self, operator: Operator, strength: u8) -> Self {
        let strength = strength.min(15);
        let field = operator as usize;
        if let Some(byte) = self.0.get_mut(field / 2) {
            *byte = match field % 2 {
                0 => strength << 4 | *byte & 0x0f,
                _ => strength | *byte & 0xf0,
            };
        }
        self
    }

    /// The strength of an operator; `None` in a table that is too short for it.
    ///
    /// ```
    /// use wirescript_format::{Operator, Strengths};
    ///
    /// let strengths = Strengths::new();
    /// assert_eq!(strengths.get(Operator::OrOr), Some(1));
    /// assert_eq!(strengths.get(Operator::Power), Some(12));
    /// assert_eq!(Strengths::from([0x5a]).get(Operator::AndAnd), None);
    /// ```
    #[must_use]
    pub fn get(&self, operator: Operator) -> Option<u8> {
        let field = operator as usize;
        let byte = self.0.get(field / 2)?;
        Some(if field % 2 == 0 {
            byte >> 4
        } else {
            byte & 0x0f
        })
    }

    /// The table as bytes.
    #[must_use]
    pub fn as_bytes(&self) -> &[u8] {
        &self.0
    }
}

impl Default for Strengths {
    fn default() -> Self {
        Self::new()
    }
}

impl From<Vec<u8>> for Strengths {
    fn from(table: Vec<u8>) -> Self {
        Self(table)
    }
}

impl From<&[u8]> for Strengths {
    fn from(table: &[u8]) -> Self {
        Self(table.into())
    }
}

impl<const N: usize> From<[u8; N]> for Strengths {
    fn from(table: [u8; N]) -> Self {
        Self(table.into())
    }
}

impl<const N: usize> From<&[u8; N]> for Strengths {
    fn from(table: &[u8; N]) -> Self {
        Self(table.into())
    }
}

#[cfg(test)]
mod tests {
    use super::*;

    /// The list of document 01, by symbol, and the order of the table.
    #[test]
    fn built_in() {
        let listed = "|| ^^, &&, |, ^, &, == !=, < > <= >=, << >>, .., + -, * / %, **";
        let mut operators = Operator::ALL.into_iter();
        for (strength, symbols) in (1..).zip(listed.split(", ")) {
            for symbol in symbols.split(' ') {
                let operator = operators.next().expect("an operator");
                assert_eq!(operator.symbol(), symbol);
                assert_eq!(Strengths::new().get(operator), Some(strength), "{symbol}");
            }
        }
        assert_eq!(operators.next(), None);
    }

    /// One strength is set, its neighbours stay, the last bits too.
    #[test]
    fn one_at_a_time() {
        for operator in Operator::ALL {
            let changed = Strengths::new().with(operator, 14);
            for other in Operator::ALL {
                let kept = Strengths::new().get(other);
                let wanted = if other == operator { Some(14) } else { kept };
                assert_eq!(changed.get(other), wanted, "{operator:?} {other:?}");
            }
            assert_eq!(changed.as_bytes()[10] & 0x0f, 0);
        }
        let most = Strengths::new().with(Operator::Power, 200);
        assert_eq!(most.get(Operator::Power), Some(15));
        assert_eq!(Strengths::from([7]).with(Operator::And, 1).as_bytes(), [7]);
    }
}
