//! F, the sound tables, the score and the share: what is worked out from a table. Rests on `case` for the lattice and the models.

use crate::case::Content;
use crate::lattice::Element;
use crate::model::{Model, State};

/// A table: a row for each state of model 1, with an entry for each state of model 2.
pub type Table = Vec<Vec<Element>>;

/// The table in bytes, "Entry (q1, q2) is byte q1·N2 + q2", where there are N1·N2 bytes and all are below n.
pub fn table(content: &Content, bytes: &[u8]) -> Option<Table> {
    let width = usize::from(content.model2.size());
    if bytes.len() != entries(content) {
        return None;
    }
    bytes
        .chunks(width)
        .map(|row| content.lattice.elements(row))
        .collect()
}

/// N1·N2, the number of entries.
pub fn entries(content: &Content) -> usize {
    usize::from(content.model1.size()) * usize::from(content.model2.size())
}

/// One entry of F(S): "the meet of p1 ↔ p2 over all propositions and, over all q1', of R1(q1, q1') → the join over q2' of R2(q2, q2')
/// met with S(q1', q2')."
pub struct Entry<'a> {
    /// The lattice and the models.
    pub content: &'a Content,
    /// S.
    pub table: &'a Table,
    /// The state of model 1.
    pub q1: State,
    /// The state of model 2.
    pub q2: State,
}

impl Entry<'_> {
    /// The entry.
    pub fn element(&self) -> Element {
        self.meet_over(self.content.model1.states())
    }

    /// Request 103: how many pairs (q1', q2') are looked at, "exactly those for which the meet over the propositions and all smaller
    /// q1' isn't bottom and, for that q1', the join over smaller q2' isn't top."
    pub fn pairs(&self) -> u32 {
        let Content {
            lattice,
            model1,
            model2,
            ..
        } = self.content;
        let mut pairs = 0;
        for to1 in model1.states() {
            let meet = self.meet_over(smaller(model1, to1));
            for to2 in model2.states() {
                let join = self.join_over(to1, smaller(model2, to2));
                pairs += u32::from(meet != lattice.bottom() && join != lattice.top());
            }
        }
        pairs
    }

    /// The meet over the propositions and these q1'.
    fn meet_over(&self, states: impl Iterator<Item = State>) -> Element {
        let Content {
            lattice,
            model1,
            model2,
            ..
        } = self.content;
        let alike = model1
            .propositions()
            .map(|p| lattice.matches(model1.label(self.q1, p), model2.label(self.q2, p)));
        let followed = states.map(|to1| {
            let join = self.join_over(to1, model2.states());
            lattice.implies(model1.transition(self.q1, to1), join)
        });
        lattice.meet(lattice.meet_over(alike), lattice.meet_over(followed))
    }

    /// For a q1', the join over these q2'.
    fn join_over(&self, to1: State, states: impl Iterator<Item = State>) -> Element {
        let Content {
            lattice, model2, ..
        } = self.content;
        lattice.join_over(states.map(|to2| {
            let entry = self.table[to1.place()][to2.place()];
            lattice.meet(model2.transition(self.q2, to2), entry)
        }))
    }
}

/// The states of a model that are smaller than one of them.
fn smaller(model: &Model, than: State) -> impl Iterator<Item = State> {
    model
        .states()
        .filter(move |state| state.place() < than.place())
}

/// Row q1 of F(S), "for all q2".
pub fn row(content: &Content, table: &Table, q1: State) -> Vec<Element> {
    let entry = |q2| Entry {
        content,
        table,
        q1,
        q2,
    };
    let states = content.model2.states();
    states.map(|q2| entry(q2).element()).collect()
}

/// F(S), whole.
pub fn f_of(content: &Content, table: &Table) -> Table {
    let states = content.model1.states();
    states.map(|q1| row(content, table, q1)).collect()
}

/// Whether a table is sound: "S at or below F(S) everywhere", in the lattice's order. Two entries that are not in order make it unsound.
pub fn is_sound(content: &Content, table: &Table) -> bool {
    content.model1.states().all(|q1| {
        let of_f = row(content, table, q1);
        let mut entries = table[q1.place()].iter().zip(of_f);
        entries.all(|(&entry, of_f)| content.lattice.at_most(entry, of_f))
    })
}

/// "score is the meet over q1 of Q0(q1) → the join over q2 of Q0(q2) met with the shown entry."
pub fn score(content: &Content, table: &Table) -> Element {
    let Content {
        lattice,
        model1,
        model2,
        ..
    } = content;
    lattice.meet_over(model1.states().map(|q1| {
        let starts = model2
            .states()
            .map(|q2| lattice.meet(model2.initial(q2), table[q1.place()][q2.place()]));
        lattice.implies(model1.initial(q1), lattice.join_over(starts))
    }))
}

/// "share is the per cent of shown entries at or above a given element, rounded to whole per cent"; since request 101 "an exact half per cent
/// to the even neighbour".
pub fn share(content: &Content, table: &Table, element: Element) -> u8 {
    let reached = table
        .iter()
        .flatten()
        .filter(|&&entry| content.lattice.at_most(element, entry))
        .count();
    let all = entries(content);
    // Of the whole numbers the nearest, and the even one where two are as near.
    let distance = |per_cent: u8| (100 * reached).abs_diff(usize::from(per_cent) * all);
    let nearest = (0..=100).min_by_key(|&per_cent| (distance(per_cent), per_cent % 2));
    nearest.expect("0 to 100 are some numbers")
}
