//! The calls on a sealed case: claims, the steps of a run, and what a case tells.
use crate::case::{Answer, Case, Claim, No, Pair, Stage, add, ask};

impl Case {
    /// The last exit of every node: the lowest edge with turns to a node one nearer to the end.
    pub(crate) fn last_exits(&self, turns: &[u32]) -> [usize; 32] {
        let mut far = [usize::MAX - 1; 32];
        far[self.end] = 0;
        let mut changes = true;
        while changes {
            changes = false;
            for (edge, count) in self.edges.iter().zip(turns) {
                if *count > 0 && far[edge.head] + 1 < far[edge.tail] {
                    far[edge.tail] = far[edge.head] + 1;
                    changes = true;
                }
            }
        }
        let mut exits = [usize::MAX; 32];
        for (x, edge) in self.edges.iter().enumerate().rev() {
            if turns[x] > 0 && far[edge.head] + 1 == far[edge.tail] {
                exits[edge.tail] = x;
            }
        }
        exits
    }

    pub(crate) fn claim(&mut self, turns: &[i64], tree: &[i64]) -> Answer<Pair> {
        ask(matches!(self.stage, Stage::Sealed), 12)?;
        self.check_turns(turns)?;
        let mut price = (0, 0);
        for (edge, count) in self.edges.iter().zip(turns) {
            add(&mut price, *count, edge.price);
        }
        self.ask_tree(tree, 1_000, price)?;
        let left: Vec<u32> = turns.iter().map(|count| *count as u32).collect();
        let exits = self.last_exits(&left);
        self.stage = Stage::Certified(Claim {
            price,
            left,
            exits,
            at: self.start,
            steps: 0,
        });
        Ok(price)
    }

    pub(crate) fn void(&mut self, tree: &[i64]) -> Answer<()> {
        ask(matches!(self.stage, Stage::Sealed), 12)?;
        self.ask_tree(tree, 0, (0, 0))?;
        self.stage = Stage::Void;
        Ok(())
    }

    pub(crate) fn step(&mut self) -> Answer<Option<usize>> {
        let Stage::Certified(claim) = &mut self.stage else {
            return Err(No(23, 0, 0));
        };
        if claim.at == self.end {
            return Ok(None);
        }
        let last = claim.exits[claim.at];
        let spare = self
            .edges
            .iter()
            .zip(&claim.left)
            .enumerate()
            .position(|(x, (edge, left))| edge.tail == claim.at && *left > u32::from(x == last));
        let x = spare.unwrap_or(last);
        claim.left[x] -= 1;
        claim.at = self.edges[x].head;
        claim.steps += 1;
        Ok(Some(x))
    }

    pub(crate) fn withdraw(&mut self) -> Answer<()> {
        ask(matches!(self.stage, Stage::Certified(_) | Stage::Void), 24)?;
        self.stage = Stage::Sealed;
        Ok(())
    }

    pub(crate) fn told(&self) -> (u32, Pair, u64, u64) {
        match &self.stage {
            Stage::Draft => (0, (0, 0), 0, 0),
            Stage::Sealed => (1, (0, 0), 0, 0),
            Stage::Certified(claim) => (
                2,
                claim.price,
                claim.steps,
                claim.left.iter().map(|n| u64::from(*n)).sum(),
            ),
            Stage::Void => (3, (0, 0), 0, 0),
        }
    }
}
