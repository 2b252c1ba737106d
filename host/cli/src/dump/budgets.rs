//! The budgets as a tree: each stands below the one that it was carved out of.

use crate::figures::{bytes, ms};
use crate::names::Names;
use crate::table::{Align, Table as Columns};
use carv_layout::BUDGET;
use carv_layout::area::{self, ObjectRow, Table};

/// Levels that are indented. What is deeper has its level written beside it.
const INDENTED: usize = 12;

pub(super) fn text(table: &Table, names: &Names) -> String {
    let columns = [
        "CPU share",
        "left",
        "reserved",
        "period from",
        "memory",
        "used",
        "reserved",
        "free",
    ];
    let columns = columns.map(|name| (name, Align::Right));
    let mut shown = Columns::new(&[&[("budget", Align::Left)], &columns[..]].concat());
    for (level, row) in tree(table) {
        let account = &row.account;
        shown.row([
            label(level, row, names),
            ms(account.cpu_allowance),
            ms(account.cpu_left),
            ms(account.cpu_reserved),
            ms(account.period_start),
            bytes(account.memory_limit),
            bytes(account.memory_used),
            bytes(account.memory_reserved),
            bytes(account.memory_free()),
        ]);
    }
    format!("Budgets, each below the one that it was carved out of:\n{shown}")
}

/// A line for each budget with all below it.
pub(super) fn totals(table: &Table, names: &Names) -> String {
    let columns = ["CPU left", "memory", "used", "free"].map(|name| (name, Align::Right));
    let mut shown = Columns::new(&[&[("budget", Align::Left)], &columns[..]].concat());
    let totals = area::totals(&table.objects);
    for (level, row) in tree(table) {
        let sums = totals.get(&row.id).copied().unwrap_or_default();
        shown.row([
            label(level, row, names),
            ms(sums.cpu_left),
            bytes(row.account.memory_limit),
            bytes(sums.memory_used),
            bytes(sums.memory_free),
        ]);
    }
    format!("Totals, each budget with all below it:\n{shown}")
}

fn label(level: usize, row: &ObjectRow, names: &Names) -> String {
    let indent = "  ".repeat(level.min(INDENTED));
    let name = names.get(row.id).map(|name| format!(" {name}"));
    let level = (level > INDENTED).then(|| format!(" (level {level})"));
    let (name, level) = (name.unwrap_or_default(), level.unwrap_or_default());
    format!("{indent}{}{name}{level}", row.id)
}

/// The budgets with their levels, each behind its parent. In an unsound area some may hang below no
/// root; these follow.
fn tree(table: &Table) -> Vec<(usize, &ObjectRow)> {
    let budgets = || table.objects.iter().filter(|row| row.kind == BUDGET);
    let is_child = |row: &ObjectRow, parent: u64| row.payer == parent && row.id != parent;
    let mut found: Vec<(usize, &ObjectRow)> = Vec::new();
    let has = |found: &[(usize, &ObjectRow)], row: &ObjectRow| {
        found.iter().any(|(_, other)| std::ptr::eq(*other, row))
    };
    let roots = budgets().filter(|row| row.id == 1);
    for root in roots.chain(budgets()) {
        let mut next = vec![(0, root)];
        while let Some((level, row)) = next.pop() {
            if has(&found, row) {
                continue;
            }
            found.push((level, row));
            let children = budgets().filter(|child| is_child(child, row.id));
            let mut children: Vec<_> = children.map(|child| (level + 1, child)).collect();
            children.reverse();
            next.extend(children);
        }
    }
    found
}

#[cfg(test)]
mod tests {
    use super::*;

    fn table(budgets: &[(u64, u64)]) -> Table {
        let objects = budgets.iter().map(|(id, payer)| ObjectRow {
            id: *id,
            kind: BUDGET,
            payer: *payer,
            ..ObjectRow::default()
        });
        Table {
            objects: objects.collect(),
            ..Table::default()
        }
    }

    fn levels(budgets: &[(u64, u64)]) -> Vec<(usize, u64)> {
        let table = table(budgets);
        let tree = tree(&table);
        tree.iter().map(|(level, row)| (*level, row.id)).collect()
    }

    #[test]
    fn children_stand_below_their_parents() {
        let budgets = [(1, 1), (2, 1), (3, 2), (4, 1), (5, 2), (6, 3)];
        let expected = [(0, 1), (1, 2), (2, 3), (3, 6), (2, 5), (1, 4)];
        assert_eq!(levels(&budgets), expected);
    }

    #[test]
    fn totals_count_every_level() {
        let mut table = table(&[(1, 1), (2, 1), (3, 2), (4, 3)]);
        for (row, reserved) in table.objects.iter_mut().zip([500, 200, 100, 0]) {
            row.account.memory_limit = [1_000, 500, 200, 100][row.id as usize - 1];
            row.account.memory_reserved = reserved;
            row.account.memory_used = 10 * row.id;
            row.account.cpu_left = 1_000_000;
        }
        let expected = "\
Totals, each budget with all below it:
  budget   CPU left   memory   used   free
  1 root       4 ms  1,000 B  100 B  900 B
    2          3 ms    500 B   90 B  410 B
      3        2 ms    200 B   70 B  130 B
        4      1 ms    100 B   40 B   60 B
";
        assert_eq!(totals(&table, &Names::default()), expected);
    }

    #[test]
    fn unsound_trees_are_printed_once() {
        let circle = [(2, 3), (3, 2), (4, 9), (4, 9)];
        assert_eq!(levels(&circle), [(0, 2), (1, 3), (0, 4), (0, 4)]);
    }

    #[test]
    fn deep_levels_are_written() {
        let row = ObjectRow::default();
        let names = Names::default();
        assert_eq!(label(1, &row, &names), "  0");
        let deep = label(511, &row, &names);
        assert_eq!(deep.trim_start(), "0 (level 511)");
        assert!(deep.len() < 50);
    }
}
