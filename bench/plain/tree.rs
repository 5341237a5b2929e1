//! The backing tree: its shape, its ranges, and the questions of its leaves.
use crate::case::{Answer, Case, No, Pair, PathRow, add, ask, ask_at};

impl Case {
    /// What is left of a list behind the tree that it begins with.
    pub(crate) fn after_tree<'a>(&self, list: &'a [i64], splits: usize) -> Option<&'a [i64]> {
        match list.first()? {
            0 => list.get(2 + 2 * self.nodes + 2 * (self.rows.len() + splits)..),
            1 if splits < 12 => {
                let second = self.after_tree(list.get(3..)?, splits + 1)?;
                self.after_tree(second, splits + 1)
            }
            _ => None,
        }
    }

    /// The ranges of a tree in the order of the list, and the place behind it.
    pub(crate) fn ask_ranges(
        &self,
        list: &[i64],
        place: usize,
        splits: usize,
        most_scale: i64,
    ) -> Answer<usize> {
        if list[place] == 1 {
            ask_at(
                (0..self.edges.len() as i64).contains(&list[place + 1]),
                19,
                place + 1,
            )?;
            ask_at((0..=1_048_575).contains(&list[place + 2]), 19, place + 2)?;
            let second = self.ask_ranges(list, place + 3, splits + 1, most_scale)?;
            return self.ask_ranges(list, second, splits + 1, most_scale);
        }
        ask_at((0..=most_scale).contains(&list[place + 1]), 19, place + 1)?;
        let end = place + 2 + 2 * self.nodes + 2 * (self.rows.len() + splits);
        for (x, number) in list[place + 2..end].iter().enumerate() {
            ask_at(number.abs() <= 67_108_864, 19, place + 2 + x)?;
        }
        Ok(end)
    }

    /// The three questions of a leaf under cycles-first, whose unit is one read.
    pub(crate) fn ask_leaf(
        &self,
        leaf: &[i64],
        path: &[PathRow],
        number: usize,
        price: Pair,
    ) -> Answer<()> {
        let scale = leaf[1];
        let pair = |i: usize| (leaf[2 + 2 * i], leaf[3 + 2 * i]);
        let multiplier = |i: usize| pair(self.nodes + i);
        let rows = self.rows.len();
        for i in 0..rows + path.len() {
            let equal = i < rows && self.rows[i].relation == 2;
            if !equal && multiplier(i) < (0, 0) {
                return Err(No(20, number, i));
            }
        }
        for (x, edge) in self.edges.iter().enumerate() {
            let (u, v) = (pair(edge.tail), pair(edge.head));
            let mut allowance = (u.0 - v.0, u.1 - v.1);
            for (i, row) in self.rows.iter().enumerate() {
                add(&mut allowance, row.coefficients[edge.block], multiplier(i));
            }
            for (i, row) in path.iter().enumerate() {
                if row.edge == x {
                    add(&mut allowance, row.coefficient, multiplier(rows + i));
                }
            }
            if (scale * edge.price.0, scale * edge.price.1) > allowance {
                return Err(No(21, number, x));
            }
        }
        let (u, v) = (pair(self.start), pair(self.end));
        let mut bound = (u.0 - v.0, u.1 - v.1);
        for (i, row) in self.rows.iter().enumerate() {
            add(&mut bound, row.limit(), multiplier(i));
        }
        for (i, row) in path.iter().enumerate() {
            add(&mut bound, row.limit, multiplier(rows + i));
        }
        ask_at(bound < (scale * price.0, scale * (price.1 + 1)), 22, number)
    }

    /// The leaves of a tree in order; what is left of the list behind it.
    pub(crate) fn ask_leaves<'a>(
        &self,
        list: &'a [i64],
        path: &mut Vec<PathRow>,
        number: &mut usize,
        price: Pair,
    ) -> Answer<&'a [i64]> {
        if list[0] == 0 {
            let (leaf, rest) =
                list.split_at(2 + 2 * self.nodes + 2 * (self.rows.len() + path.len()));
            self.ask_leaf(leaf, path, *number, price)?;
            *number += 1;
            return Ok(rest);
        }
        let (edge, most) = (list[1] as usize, list[2]);
        path.push(PathRow {
            edge,
            coefficient: 1,
            limit: most,
        });
        let second = self.ask_leaves(&list[3..], path, number, price)?;
        path.pop();
        path.push(PathRow {
            edge,
            coefficient: -1,
            limit: -(most + 1),
        });
        let rest = self.ask_leaves(second, path, number, price)?;
        path.pop();
        Ok(rest)
    }

    pub(crate) fn ask_tree(&self, tree: &[i64], most_scale: i64, price: Pair) -> Answer<()> {
        ask(
            self.after_tree(tree, 0).is_some_and(|rest| rest.is_empty()),
            18,
        )?;
        self.ask_ranges(tree, 0, 0, most_scale)?;
        self.ask_leaves(tree, &mut Vec::with_capacity(12), &mut 0, price)?;
        Ok(())
    }
}
