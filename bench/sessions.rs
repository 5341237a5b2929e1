//! Writes sessions whose claims are all accepted: chains of counted loops, with the claim that a solver would make.
//! `sessions DIR` writes one file a session; the name begins with its kind.
use std::fmt::Write as _;
use std::{env, fs, io, path::Path};

/// `maxt` reads no more.
const SESSION_BYTES: usize = 65_536;
/// How often each loop goes back.
const BACK: i64 = 3;

/// Numbers that look random, and are the same at every run.
struct Dice(u64);

impl Dice {
    fn below(&mut self, n: u64) -> i64 {
        self.0 = self
            .0
            .wrapping_mul(6_364_136_223_846_793_005)
            .wrapping_add(1_442_695_040_888_963_407);
        ((self.0 >> 33) % n) as i64
    }

    fn price(&mut self) -> [i64; 2] {
        [1 + self.below(900), self.below(30)]
    }
}

/// One loop of the chain: into the body, back to the head, on to the next head.
struct Loop {
    body: [i64; 2],
    back: [i64; 2],
    onward: [i64; 2],
}

/// An entry and loops in a chain. A row limits each loop's way back to three times the entry; further rows say that what enters a body leaves it.
struct Chain {
    entry: [i64; 2],
    loops: Vec<Loop>,
    balances: usize,
    skips: bool,
}

fn part_by_part(a: [i64; 2], b: [i64; 2]) -> [i64; 2] {
    [a[0] + b[0], a[1] + b[1]]
}

impl Chain {
    fn new(dice: &mut Dice, loops: usize, balances: usize, skips: bool) -> Chain {
        let entry = dice.price();
        let loops = (0..loops)
            .map(|_| Loop {
                body: dice.price(),
                back: dice.price(),
                onward: dice.price(),
            })
            .collect();
        Chain {
            entry,
            loops,
            balances,
            skips,
        }
    }

    /// In the longest chain three edges more lead past two loops, which makes 64 edges.
    fn long_skips(&self) -> usize {
        if self.loops.len() == 15 { 3 } else { 0 }
    }

    fn rows(&self) -> usize {
        self.loops.len() + self.balances
    }

    /// The edges, the rows and `seal`. Blocks: 0 the entry, then three for each loop, 63 the ways past a loop.
    fn draft(&self) -> String {
        let mut text = format!("edge 0 1 0 {} {}\n", self.entry[0], self.entry[1]);
        for (i, each) in self.loops.iter().enumerate() {
            let (head, body, block) = (1 + 2 * i, 2 + 2 * i, 1 + 3 * i);
            let Loop {
                body: b,
                back,
                onward,
            } = each;
            _ = writeln!(text, "edge {head} {body} {block} {} {}", b[0], b[1]);
            _ = writeln!(
                text,
                "edge {body} {head} {} {} {}",
                block + 1,
                back[0],
                back[1]
            );
            _ = writeln!(
                text,
                "edge {body} {} {} {} {}",
                head + 2,
                block + 2,
                onward[0],
                onward[1]
            );
            if self.skips {
                _ = writeln!(text, "edge {head} {} 63 {} {}", head + 2, b[0], b[1]);
            }
        }
        for i in 0..self.long_skips() {
            _ = writeln!(text, "edge {} {} 63 0 0", 1 + 2 * i, 5 + 2 * i);
        }
        for i in 0..self.loops.len() {
            _ = writeln!(text, "row 1 0 -{BACK}{} 1", " 0".repeat(1 + 3 * i));
        }
        for i in 0..self.balances {
            _ = writeln!(text, "row 2 0{} 1 -1 -1", " 0".repeat(1 + 3 * i));
        }
        text + "seal\n"
    }

    fn turns(&self) -> Vec<i64> {
        let mut turns = vec![1];
        for _ in &self.loops {
            turns.extend([BACK + 1, BACK, 1]);
            turns.extend(self.skips.then_some(0));
        }
        turns.extend(vec![0; self.long_skips()]);
        turns
    }

    /// A leaf of scale 1 under so many splits, whose path rows it does not use.
    fn leaf(&self, splits: usize) -> Vec<i64> {
        let mut ahead = [0, 0];
        let mut potentials = vec![ahead];
        let mut multipliers = Vec::new();
        let mut loops_cost = [0, 0];
        for (i, each) in self.loops.iter().enumerate().rev() {
            // a balance row with the multiplier (1, 1) lifts the body's potential by as much
            let lift = i64::from(i < self.balances);
            ahead = part_by_part(ahead, each.onward);
            potentials.push(part_by_part(ahead, [lift, lift]));
            ahead = part_by_part(ahead, each.body);
            potentials.push(ahead);
            multipliers.push(part_by_part(each.body, each.back));
        }
        for each in &multipliers {
            loops_cost = part_by_part(loops_cost, [BACK * each[0], BACK * each[1]]);
        }
        potentials.push(part_by_part(part_by_part(ahead, self.entry), loops_cost));
        let mut numbers = vec![0, 1];
        numbers.extend(potentials.iter().rev().flatten());
        numbers.extend(multipliers.iter().rev().flatten());
        numbers.extend(vec![1; 2 * self.balances]);
        numbers.extend(vec![0; 2 * splits]);
        numbers
    }

    /// A tree of so many leaves, as level as can be, split at the ways back.
    fn level_tree(&self, leaves: usize, splits: usize) -> Vec<i64> {
        if leaves == 1 {
            return self.leaf(splits);
        }
        let edge = self.way_back(splits);
        let mut tree = vec![1, edge, BACK];
        tree.extend(self.level_tree(leaves - leaves / 2, splits + 1));
        tree.extend(self.level_tree(leaves / 2, splits + 1));
        tree
    }

    /// A comb: under each split a tree with the rest, and a leaf of scale 0, since no run goes back more than three times.
    fn comb(&self, splits: usize, depth: usize) -> Vec<i64> {
        if splits == depth {
            return self.leaf(splits);
        }
        let mut tree = vec![1, self.way_back(splits), BACK];
        tree.extend(self.comb(splits + 1, depth));
        tree.extend(self.no_run(splits + 1));
        tree
    }

    /// The leaf that shows that no run goes back more often than the row says: the row and the last path row add up to less than nothing.
    fn no_run(&self, splits: usize) -> Vec<i64> {
        let nodes = 2 + 2 * self.loops.len();
        let mut leaf = vec![0; 2 + 2 * (nodes + self.rows() + splits)];
        let row = (splits - 1) % self.loops.len();
        leaf[2] = BACK;
        leaf[2 + 2 * (nodes + row)] = 1;
        leaf[2 + 2 * (nodes + self.rows() + splits - 1)] = 1;
        leaf
    }

    fn way_back(&self, splits: usize) -> i64 {
        let each = if self.skips { 4 } else { 3 };
        2 + (each * (splits % self.loops.len())) as i64
    }

    fn claim(&self, tree: &[i64]) -> String {
        let turns = self.turns();
        let mut line = format!("claim {}", turns.len());
        for number in turns.iter().chain(tree) {
            _ = write!(line, " {number}");
        }
        assert!(
            line.len() <= 4_095 && 1 + turns.len() + tree.len() <= 512,
            "a line too long"
        );
        line + "\n"
    }

    fn steps(&self) -> usize {
        self.turns().iter().sum::<i64>() as usize
    }
}

/// A draft, and then these lines again and again, as often as a session has room for.
fn session(chain: &Chain, lines: &str) -> String {
    let draft = chain.draft();
    let times = (SESSION_BYTES - draft.len()) / lines.len();
    draft + &lines.repeat(times)
}

fn main() -> io::Result<()> {
    let dir = env::args().nth(1).expect("a directory");
    let dice = &mut Dice(20);
    let write = |name: String, text: String| fs::write(Path::new(&dir).join(name + ".txt"), text);
    for (loops, balances, skips) in [(1, 0, false), (4, 2, true), (10, 5, true), (15, 9, true)] {
        let chain = Chain::new(dice, loops, balances, skips);
        let edges = chain.turns().len();
        let claim = chain.claim(&chain.leaf(0));
        let steps = claim.clone() + &"step\n".repeat(chain.steps() + 1) + "told\nwithdraw\n";
        write(format!("steps-{edges}-edges"), session(&chain, &steps))?;
        write(
            format!("one-leaf-{edges}-edges"),
            session(&chain, &(claim + "withdraw\n")),
        )?;
    }
    for (loops, balances, skips, depth) in [
        (1, 0, false, 12),
        (2, 1, true, 11),
        (4, 2, true, 7),
        (6, 3, true, 4),
    ] {
        let chain = Chain::new(dice, loops, balances, skips);
        let claim = chain.claim(&chain.comb(0, depth));
        write(
            format!("deep-{depth}-splits"),
            session(&chain, &(claim + "withdraw\n")),
        )?;
    }
    let chain = Chain::new(dice, 1, 0, false);
    for leaves in [1, 2, 4, 8, 12, 16, 20] {
        let claim = chain.claim(&chain.level_tree(leaves, 0));
        let lines = chain.draft() + &(claim + "withdraw\n").repeat(40);
        write(format!("growth-{leaves:02}-leaves"), lines)?;
    }
    Ok(())
}
