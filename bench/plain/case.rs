//! A case and its two drafting calls, and what all questions share.

pub(crate) type Pair = (i64, i64);

/// The number of a failed question and its two places.
pub(crate) struct No(pub(crate) u32, pub(crate) usize, pub(crate) usize);

pub(crate) type Answer<T> = Result<T, No>;

pub(crate) fn ask(passes: bool, number: u32) -> Answer<()> {
    ask_at(passes, number, 0)
}

pub(crate) fn ask_at(passes: bool, number: u32, place: usize) -> Answer<()> {
    if passes {
        Ok(())
    } else {
        Err(No(number, place, 0))
    }
}

#[derive(Clone, Copy)]
pub(crate) struct Edge {
    pub(crate) tail: usize,
    pub(crate) head: usize,
    pub(crate) block: usize,
    pub(crate) price: Pair,
}

pub(crate) struct Row {
    pub(crate) relation: i64,
    pub(crate) k: i64,
    pub(crate) coefficients: [i64; 64],
}

impl Row {
    pub(crate) fn limit(&self) -> i64 {
        if self.relation == 0 {
            self.k - 1
        } else {
            self.k
        }
    }

    pub(crate) fn is_kept(&self, sum: i64) -> bool {
        match self.relation {
            0 => sum < self.k,
            1 => sum <= self.k,
            _ => sum == self.k,
        }
    }
}

/// A row that a split adds: a coefficient on one edge, and a limit.
#[derive(Clone, Copy)]
pub(crate) struct PathRow {
    pub(crate) edge: usize,
    pub(crate) coefficient: i64,
    pub(crate) limit: i64,
}

/// A certified claim, and how far its run has been handed out.
pub(crate) struct Claim {
    pub(crate) price: Pair,
    pub(crate) left: Vec<u32>,
    pub(crate) exits: [usize; 32],
    pub(crate) at: usize,
    pub(crate) steps: u64,
}

pub(crate) enum Stage {
    Draft,
    Sealed,
    Certified(Claim),
    Void,
}

pub(crate) struct Case {
    pub(crate) stage: Stage,
    pub(crate) edges: Vec<Edge>,
    pub(crate) rows: Vec<Row>,
    pub(crate) nodes: usize,
    pub(crate) start: usize,
    pub(crate) end: usize,
}

pub(crate) fn add(sum: &mut Pair, times: i64, pair: Pair) {
    sum.0 += times * pair.0;
    sum.1 += times * pair.1;
}

impl Case {
    pub(crate) fn new() -> Case {
        Case {
            stage: Stage::Draft,
            edges: Vec::with_capacity(64),
            rows: Vec::with_capacity(24),
            nodes: 0,
            start: 0,
            end: 0,
        }
    }

    pub(crate) fn is_draft(&self) -> bool {
        matches!(self.stage, Stage::Draft)
    }

    pub(crate) fn edge(&mut self, n: &[i64]) -> Answer<usize> {
        let (tail, head) = (n[0] as usize, n[1] as usize);
        ask(self.is_draft(), 1)?;
        ask(self.edges.len() < 64, 2)?;
        ask(tail <= 31 && head <= 31 && n[2] <= 63, 3)?;
        ask(n[3] <= 65_535 && n[4] <= 65_535, 4)?;
        ask(
            !self.edges.iter().any(|e| e.tail == tail && e.head == head),
            5,
        )?;
        self.edges.push(Edge {
            tail,
            head,
            block: n[2] as usize,
            price: (n[3], n[4]),
        });
        self.nodes = self.nodes.max(tail + 1).max(head + 1);
        Ok(self.edges.len() - 1)
    }

    pub(crate) fn row(&mut self, relation: i64, k: i64, given: &[i64]) -> Answer<usize> {
        ask(self.is_draft(), 1)?;
        ask(self.rows.len() < 24, 6)?;
        ask((0..=2).contains(&relation), 7)?;
        let small = given.iter().all(|c| c.abs() <= 1_000);
        ask(k.abs() <= 1_048_576 && given.len() <= 64 && small, 8)?;
        let mut coefficients = [0; 64];
        coefficients[..given.len()].copy_from_slice(given);
        self.rows.push(Row {
            relation,
            k,
            coefficients,
        });
        Ok(self.rows.len() - 1)
    }
}
