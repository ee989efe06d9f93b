//! The walk from one position: focus states, pruned by the right set at every step, so that it ends right after the longest candidate. The
//! first set is looked at too, for the empty stretch.

use super::stepping::focus_next;
use super::Ready;

impl Ready<'_> {
    /// The focus states that may start here: of each rule whose left context holds, those that the right set holds.
    fn focus_first(&self, left: u64, right: u64) -> u64 {
        if right & self.outline.all_focus_starts == 0 {
            return 0;
        }
        let rules = self.outline.left_accepts.iter().zip(&self.outline.focus_starts).take(self.outline.rules);
        right & rules.fold(0, |out, (accepts, starts)| if left & accepts != 0 { out | starts } else { out })
    }

    /// Visits each end at which some focus of the walk from `from` accepts, with the focus set and the right set there.
    pub fn walk(&self, from: usize, left: u64, mut visit: impl FnMut(usize, u64, u64)) {
        let mut right = self.right_set(from);
        let mut set = self.focus_first(left, right);
        let mut j = from;
        while set != 0 {
            if set & self.outline.all_focus_accepts != 0 {
                visit(j, set, right);
            }
            if j == self.tape.len() {
                return;
            }
            right = self.right_set(j + 1);
            set = focus_next(self.book, self.outline, set, self.tape[j], right);
            j += 1;
        }
    }

    pub fn rule_hits(&self, rule: usize, set: u64, right: u64) -> bool {
        set & self.outline.focus_accepts[rule] != 0 && right & self.outline.right_starts[rule] != 0
    }

    /// The end of the longest candidate from a position, which may be the position itself, and its lowest rule.
    pub fn taken_at(&self, from: usize, left: u64) -> Option<(usize, usize)> {
        let mut taken = None;
        self.walk(from, left, |end, set, right| {
            let hit = (0..self.outline.rules).find(|rule| self.rule_hits(*rule, set, right));
            taken = hit.map(|rule| (end, rule)).or(taken);
        });
        taken
    }
}
