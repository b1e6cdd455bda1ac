//! Shapes of a formula part in which the facts of the formula are easily counted wrongly, found in its bytes.

/// AX within EX: the nesting goes on through EX.
const AX_WITHIN_EX: &str = "AX within EX";
const AX_WITHIN_FIXPOINT: &str = "AX within a fixpoint";
/// The sides of an or or and differ in their nesting.
const DEEPER_LEFT: &str = "AX nested deeper on the left side";
const DEEPER_RIGHT: &str = "AX nested deeper on the right side";
/// A proposition whose number is the code of AX, of EX or of a fixpoint.
const OPERAND_AX: &str = "proposition 7, which is no AX";
const OPERAND_EX: &str = "proposition 8, which is no EX";
const OPERAND_FIXPOINT: &str = "proposition 9 or 10, which is no fixpoint";
const DEEPEST: &str = "254 nested AX";

/// The names of all shapes.
pub const SHAPES: [&str; 8] = [
    AX_WITHIN_EX,
    AX_WITHIN_FIXPOINT,
    DEEPER_LEFT,
    DEEPER_RIGHT,
    OPERAND_AX,
    OPERAND_EX,
    OPERAND_FIXPOINT,
    DEEPEST,
];

/// The shapes that an accepted formula part has, each once.
pub fn of(part: &[u8]) -> Vec<&'static str> {
    let mut walk = Walk {
        rest: part.iter(),
        found: Vec::new(),
    };
    if walk.node(Around::default()) == 254 {
        walk.found.push(DEEPEST);
    }
    walk.found.sort_unstable();
    walk.found.dedup();
    walk.found
}

/// What a formula stands within.
#[derive(Clone, Copy, Default)]
struct Around {
    ex: bool,
    fixpoint: bool,
}

struct Walk<'a> {
    rest: std::slice::Iter<'a, u8>,
    found: Vec<&'static str>,
}

impl Walk<'_> {
    fn byte(&mut self) -> u8 {
        *self.rest.next().expect("an accepted formula part")
    }

    /// Goes through the formula that begins here, and gives its deepest nesting of AX.
    fn node(&mut self, around: Around) -> usize {
        match self.byte() {
            0 | 1 => 0,
            2 | 3 => self.proposition(),
            4 => {
                self.byte();
                0
            }
            5 | 6 => self.sides(around),
            7 => self.ax(around),
            8 => self.node(Around { ex: true, ..around }),
            _ => self.node(Around {
                fixpoint: true,
                ..around
            }),
        }
    }

    fn proposition(&mut self) -> usize {
        match self.byte() {
            7 => self.found.push(OPERAND_AX),
            8 => self.found.push(OPERAND_EX),
            9 | 10 => self.found.push(OPERAND_FIXPOINT),
            _ => (),
        }
        0
    }

    fn sides(&mut self, around: Around) -> usize {
        let (left, right) = (self.node(around), self.node(around));
        if left > right {
            self.found.push(DEEPER_LEFT);
        }
        if left < right {
            self.found.push(DEEPER_RIGHT);
        }
        left.max(right)
    }

    fn ax(&mut self, around: Around) -> usize {
        if around.ex {
            self.found.push(AX_WITHIN_EX);
        }
        if around.fixpoint {
            self.found.push(AX_WITHIN_FIXPOINT);
        }
        1 + self.node(around)
    }
}

#[cfg(test)]
mod tests {
    use super::*;

    #[test]
    fn shapes_are_found() {
        assert!(of(&[6, 2, 0, 9, 4, 0]).is_empty());
        assert_eq!(of(&[8, 7, 1]), [AX_WITHIN_EX]);
        assert_eq!(of(&[9, 7, 4, 0]), [AX_WITHIN_FIXPOINT]);
        assert_eq!(of(&[5, 7, 7, 1, 7, 1]), [DEEPER_LEFT]);
        assert_eq!(of(&[6, 2, 7, 7, 1]), [DEEPER_RIGHT, OPERAND_AX]);
        assert_eq!(of(&[6, 3, 8, 3, 10]), [OPERAND_EX, OPERAND_FIXPOINT]);
        assert_eq!(of(&[vec![7; 254], vec![1]].concat()), [DEEPEST]);
    }
}
