//! The graph: its ends, which nodes are joined, and whether turns are those of a run.
use crate::case::{Answer, Case, No, Pair, Stage, ask, ask_at};

/// The only number from 0 to n for which the test holds.
fn only(n: usize, test: impl Fn(usize) -> bool) -> Option<usize> {
    let mut found = (0..n).filter(|v| test(*v));
    let first = found.next()?;
    if found.next().is_some() {
        None
    } else {
        Some(first)
    }
}

impl Case {
    /// The nodes that are joined to a node over edges that may be taken, forwards or backwards.
    pub(crate) fn joined(
        &self,
        from: usize,
        backwards: bool,
        may: impl Fn(usize) -> bool,
    ) -> [bool; 32] {
        let mut seen = [false; 32];
        seen[from] = true;
        let mut grows = true;
        while grows {
            grows = false;
            for (x, edge) in self.edges.iter().enumerate() {
                let (a, b) = if backwards {
                    (edge.head, edge.tail)
                } else {
                    (edge.tail, edge.head)
                };
                if seen[a] && !seen[b] && may(x) {
                    seen[b] = true;
                    grows = true;
                }
            }
        }
        seen
    }

    pub(crate) fn seal(&mut self) -> Answer<Pair> {
        ask(self.is_draft(), 1)?;
        let start =
            only(self.nodes, |v| self.edges.iter().all(|e| e.head != v)).ok_or(No(9, 0, 0))?;
        let end =
            only(self.nodes, |v| self.edges.iter().all(|e| e.tail != v)).ok_or(No(10, 0, 0))?;
        let (from, to) = (
            self.joined(start, false, |_| true),
            self.joined(end, true, |_| true),
        );
        for v in 0..self.nodes {
            ask_at(from[v] && to[v], 11, v)?;
        }
        (self.start, self.end, self.stage) = (start, end, Stage::Sealed);
        Ok((start as i64, end as i64))
    }

    /// The questions that make the turns those of a run.
    pub(crate) fn check_turns(&self, turns: &[i64]) -> Answer<()> {
        ask(turns.len() == self.edges.len(), 13)?;
        for (x, count) in turns.iter().enumerate() {
            ask_at(*count <= 1_048_575, 14, x)?;
        }
        let mut balance = [0; 32];
        balance[self.start] += 1;
        balance[self.end] -= 1;
        for (edge, count) in self.edges.iter().zip(turns) {
            balance[edge.head] += count;
            balance[edge.tail] -= count;
        }
        for (v, rest) in balance[..self.nodes].iter().enumerate() {
            ask_at(*rest == 0, 15, v)?;
        }
        let to_end = self.joined(self.end, true, |x| turns[x] > 0);
        for (x, edge) in self.edges.iter().enumerate() {
            ask_at(turns[x] == 0 || to_end[edge.head], 16, x)?;
        }
        for (i, row) in self.rows.iter().enumerate() {
            let sum = self
                .edges
                .iter()
                .zip(turns)
                .map(|(e, count)| row.coefficients[e.block] * count)
                .sum();
            ask_at(row.is_kept(sum), 17, i)?;
        }
        Ok(())
    }
}
