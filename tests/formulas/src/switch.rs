//! Switches: a universal that stands in every clause, in front of many existentials. Expanding it sheds a literal from each
//! clause, so the weight falls, but the copies may pass the limit of variables: runs that end OUT OF ROOM.

use crate::draw::Draw;
use crate::formula::Formula;

/// exists x (`outer` of them) forall u exists y (n of them, at most 560). Each literal of a y stands three times with u and
/// three times with its opposite, so that no y is worth resolving; each x stands in place of a few. Clauses have u and five
/// others, at most. The copies' numbers fit exactly if outer + 1 + 2n is at most 1,023.
pub fn switch(outer: usize, n: usize, seed: u64) -> Formula {
    let mut draw = Draw::new(seed);
    let mut formula = Formula::new();
    let x = formula.exists(outer);
    let u = formula.forall(1)[0];
    let y = formula.exists(n);
    for phase in [u, -u] {
        let mut dealt: Vec<i32> = y.iter().flat_map(|&y| [y, y, y, -y, -y, -y]).collect();
        draw.shuffle(&mut dealt);
        while let Some(place) = (0..dealt.len()).find(|&place| repeats(&dealt, place)) {
            let other = draw.below(dealt.len());
            dealt.swap(place, other);
        }
        for &x in &x {
            for sign in [1, 1, -1, -1] {
                let place = draw.below(dealt.len());
                dealt[place] = x * sign;
            }
        }
        for five in dealt.chunks(5) {
            formula.clause(&[&[phase], five].concat());
        }
    }
    formula
}

/// Whether the variable at a place stands earlier among the same five.
fn repeats(dealt: &[i32], place: usize) -> bool {
    dealt[place - place % 5..place].iter().any(|other| other.abs() == dealt[place].abs())
}
