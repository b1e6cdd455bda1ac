//! The lattice: how a lattice part is read and checked, and the operations of the lattice it gives.

/// An element of a lattice. "An element, a state and a proposition are three sorts of number, and none is ever used as another."
#[derive(Clone, Copy, Debug, PartialEq, Eq)]
pub struct Element(u8);

impl Element {
    /// The byte that stands for the element.
    pub fn byte(self) -> u8 {
        self.0
    }

    /// The element's place in the lattice's tables.
    fn place(self) -> usize {
        usize::from(self.0)
    }
}

/// `order[i][j]` says whether element i is at or below element j.
type Order = Vec<Vec<bool>>;

/// What a lattice part holds once its form is right: complements and order.
struct Form {
    complement: Vec<Element>,
    order: Order,
}

/// A checked lattice, with its meets and joins worked out into tables.
pub struct Lattice {
    /// Whether the part is the one byte 0. The panel lattice may also be given by its complements and order.
    one_byte: bool,
    complement: Vec<Element>,
    order: Order,
    meets: Vec<Vec<Element>>,
    joins: Vec<Vec<Element>>,
    bottom: Element,
    top: Element,
}

/// The lattice of a part, or the number of the refusal: "n over 64, a wrong length, a complement not below n, an order byte not 0
/// or 1" (4), "no partial order" (5), "a meet or join is missing" (6), "not distributive" (7), "a complement rule broken" (8).
pub fn read(part: &[u8]) -> Result<Lattice, u8> {
    let Form { complement, order } = form(part).ok_or(4u8)?;
    if !is_partial_order(&order) {
        return Err(5);
    }
    let meets = meets(&order).ok_or(6u8)?;
    let joins = joins(&order).ok_or(6u8)?;
    let lattice = Lattice {
        one_byte: part == [0],
        bottom: of_all(&meets),
        top: of_all(&joins),
        complement,
        order,
        meets,
        joins,
    };
    if !lattice.is_distributive() {
        return Err(7);
    }
    if !lattice.keeps_complement_rules() {
        return Err(8);
    }
    Ok(lattice)
}

/// "A lattice part is n (1 to 64), then n complement bytes, then n·n order bytes. Byte i·n + j of the order is 1 if element i is at
/// or below element j, else 0." "A lattice part of the one byte 0 means the panel lattice".
fn form(part: &[u8]) -> Option<Form> {
    if part == [0] {
        return Some(panel());
    }
    let (&first, rest) = part.split_first()?;
    let n = usize::from(first);
    if !(1..=64).contains(&n) || rest.len() != n + n * n {
        return None;
    }
    let (complement, order) = rest.split_at(n);
    if complement.iter().any(|&c| c >= first) || order.iter().any(|&o| o > 1) {
        return None;
    }
    Some(Form {
        complement: complement.iter().map(|&c| Element(c)).collect(),
        order: order
            .chunks(n)
            .map(|row| row.iter().map(|&o| o == 1).collect())
            .collect(),
    })
}

/// The panel lattice: "27 elements, number 9a + 3b + c, each of a, b, c being 0 (no), 1 (unsure) or 2 (yes). The order is that of all
/// three places, and not-e is 26 − e."
fn panel() -> Form {
    let places = |e: u8| [e / 9, e / 3 % 3, e % 3];
    let below = |i: u8, j: u8| places(i).iter().zip(places(j)).all(|(&x, y)| x <= y);
    Form {
        complement: (0..27).map(|e| Element(26 - e)).collect(),
        order: (0..27)
            .map(|i| (0..27).map(|j| below(i, j)).collect())
            .collect(),
    }
}

/// "The order is reflexive, antisymmetric and transitive."
fn is_partial_order(order: &Order) -> bool {
    let n = order.len();
    let reflexive = (0..n).all(|i| order[i][i]);
    let antisymmetric = (0..n).all(|i| (0..n).all(|j| i == j || !(order[i][j] && order[j][i])));
    let transitive = (0..n).all(|i| {
        (0..n)
            .all(|j| !order[i][j] || (0..n).all(|through| !order[j][through] || order[i][through]))
    });
    reflexive && antisymmetric && transitive
}

/// The meets of all pairs, or nothing where one is missing: "Every two elements have a meet and a join."
fn meets(order: &Order) -> Option<Vec<Vec<Element>>> {
    let n = order.len();
    (0..n)
        .map(|a| (0..n).map(|b| greatest_below(order, a, b)).collect())
        .collect()
}

/// The joins of all pairs: they are the meets of the order turned over.
fn joins(order: &Order) -> Option<Vec<Vec<Element>>> {
    let n = order.len();
    let turned = (0..n)
        .map(|i| (0..n).map(|j| order[j][i]).collect())
        .collect();
    meets(&turned)
}

/// The greatest of the elements that are at or below both a and b, where there is one.
fn greatest_below(order: &Order, a: usize, b: usize) -> Option<Element> {
    let lower: Vec<usize> = (0..order.len())
        .filter(|&e| order[e][a] && order[e][b])
        .collect();
    let greatest = lower
        .iter()
        .find(|&&e| lower.iter().all(|&other| order[other][e]))?;
    u8::try_from(*greatest).ok().map(Element)
}

/// All elements taken together by a table of meets, which gives bottom, or of joins, which gives top.
fn of_all(table: &[Vec<Element>]) -> Element {
    (0..table.len()).fold(Element(0), |sum, e| table[sum.place()][e])
}

impl Lattice {
    /// The part that was read: a table, or "the panel lattice as its one byte if it was loaded so".
    pub fn part(&self) -> Vec<u8> {
        if self.one_byte {
            return vec![0];
        }
        let mut part = vec![self.size() as u8];
        part.extend(self.complement.iter().map(|element| element.byte()));
        part.extend(self.order.iter().flatten().map(|&below| u8::from(below)));
        part
    }

    /// How many elements the lattice has.
    pub fn size(&self) -> usize {
        self.order.len()
    }

    /// The element that a byte stands for, where it is below n.
    pub fn element(&self, byte: u8) -> Option<Element> {
        (usize::from(byte) < self.size()).then_some(Element(byte))
    }

    /// The elements that bytes stand for, where all are below n.
    pub fn elements(&self, bytes: &[u8]) -> Option<Vec<Element>> {
        bytes.iter().map(|&byte| self.element(byte)).collect()
    }

    /// The least element.
    pub fn bottom(&self) -> Element {
        self.bottom
    }

    /// The greatest element.
    pub fn top(&self) -> Element {
        self.top
    }

    /// Whether a is at or below b.
    pub fn at_most(&self, a: Element, b: Element) -> bool {
        self.order[a.place()][b.place()]
    }

    /// The meet of two elements.
    pub fn meet(&self, a: Element, b: Element) -> Element {
        self.meets[a.place()][b.place()]
    }

    /// The join of two elements.
    pub fn join(&self, a: Element, b: Element) -> Element {
        self.joins[a.place()][b.place()]
    }

    /// "The complement is the one in the table; it need not be a Boolean one."
    pub fn not(&self, a: Element) -> Element {
        self.complement[a.place()]
    }

    /// "a → b is (not a) joined with b."
    pub fn implies(&self, a: Element, b: Element) -> Element {
        self.join(self.not(a), b)
    }

    /// "a ↔ b is the meet of a → b and b → a."
    pub fn matches(&self, a: Element, b: Element) -> Element {
        self.meet(self.implies(a, b), self.implies(b, a))
    }

    /// "A meet over nothing is top".
    pub fn meet_over(&self, elements: impl Iterator<Item = Element>) -> Element {
        elements.fold(self.top, |sum, e| self.meet(sum, e))
    }

    /// "a join over nothing bottom."
    pub fn join_over(&self, elements: impl Iterator<Item = Element>) -> Element {
        elements.fold(self.bottom, |sum, e| self.join(sum, e))
    }

    /// The elements in the order of their numbers.
    fn all(&self) -> impl Iterator<Item = Element> + '_ {
        (0..=u8::MAX).map_while(|byte| self.element(byte))
    }

    /// "Meet distributes over join."
    fn is_distributive(&self) -> bool {
        self.all().all(|a| {
            self.all().all(|b| {
                self.all().all(|c| {
                    self.meet(a, self.join(b, c)) == self.join(self.meet(a, b), self.meet(a, c))
                })
            })
        })
    }

    /// "The complement of the complement is the element, and a ≤ b gives not-b ≤ not-a."
    fn keeps_complement_rules(&self) -> bool {
        let twice = self.all().all(|a| self.not(self.not(a)) == a);
        let turns = self.all().all(|a| {
            self.all()
                .all(|b| !self.at_most(a, b) || self.at_most(self.not(b), self.not(a)))
        });
        twice && turns
    }
}

#[cfg(test)]
mod tests {
    use super::*;

    #[test]
    fn the_panel_lattice_is_worked_place_by_place() {
        let panel = read(&[0]).unwrap_or_else(|number| panic!("refused {number}"));
        assert_eq!(
            (panel.size(), panel.bottom(), panel.top()),
            (27, Element(0), Element(26))
        );
        let number = |a: u8, b: u8, c: u8| Element(9 * a + 3 * b + c);
        assert_eq!(
            panel.meet(number(0, 2, 1), number(1, 1, 1)),
            number(0, 1, 1)
        );
        assert_eq!(
            panel.join(number(0, 2, 1), number(1, 1, 1)),
            number(1, 2, 1)
        );
        assert_eq!(panel.not(number(0, 2, 1)), number(2, 0, 1));
        assert!(!panel.at_most(number(0, 2, 1), number(1, 1, 1)));
        assert_eq!(panel.element(27), None);
    }

    #[test]
    fn implication_and_matching_of_a_chain_of_three() {
        let chain = read(&[3, 2, 1, 0, 1, 1, 1, 0, 1, 1, 0, 0, 1]);
        let chain = chain.unwrap_or_else(|number| panic!("refused {number}"));
        assert_eq!(chain.implies(Element(1), Element(1)), Element(1));
        assert_eq!(chain.implies(Element(2), Element(0)), Element(0));
        assert_eq!(chain.matches(Element(0), Element(0)), Element(2));
        assert_eq!(chain.matches(Element(2), Element(1)), Element(1));
        assert_eq!(chain.matches(Element(2), Element(0)), Element(0));
        assert_eq!(chain.matches(Element(0), Element(2)), Element(0));
        assert_eq!(chain.meet_over([].into_iter()), Element(2));
        assert_eq!(chain.join_over([].into_iter()), Element(0));
    }
}
