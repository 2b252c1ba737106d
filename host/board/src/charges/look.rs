//! Looks up objects, their payers, and what these have free.

use crate::area::{ObjectRow, Table};

/// The object with this id.
pub fn object(table: &Table, id: u64) -> Option<&ObjectRow> {
    let objects = &table.objects;
    let place = objects.binary_search_by_key(&id, |row| row.id).ok()?;
    Some(&objects[place])
}

/// The payer of an object.
pub fn payer(table: &Table, id: u64) -> Option<u64> {
    object(table, id).map(|row| row.payer)
}

/// What the payer of an object has free.
pub fn free(table: &Table, id: u64) -> Option<u64> {
    let payer = object(table, payer(table, id)?)?;
    Some(payer.account.memory_free())
}

/// The payers above a budget, the root last; none above the root.
pub fn above(table: &Table, budget: u64) -> Vec<u64> {
    let mut above = Vec::new();
    let mut id = budget;
    while let Some(payer) = payer(table, id).filter(|payer| *payer < id) {
        above.push(payer);
        id = payer;
    }
    above
}

#[cfg(test)]
pub mod tests {
    use super::*;
    use crate::{area, snapshot};
    use carv_compare::board::make::*;
    use carv_compare::board::reference::Reference;
    use carv_oracle::account::PERIOD;

    /// Budget 2 carves out 3, and 4 stands beside 2; each pays for an object, 5 to 7. 8 was removed,
    /// 9 is the root's.
    pub fn table() -> Table {
        let mut board = Reference::default();
        for call in [
            open(PERIOD, 1_000_000),
            carve(1, 0, 10_000, 0),
            carve(2, 0, 1_000, 0),
            carve(1, 0, 1_000, 0),
            insert(5, 2, 0),
            insert(5, 3, 400),
            insert(5, 4, 1_000),
            insert(5, 1, 0),
            insert(5, 1, 0),
            remove(8, 0),
        ] {
            assert_eq!(board.call(call).number, 0, "{call}");
        }
        let mut bytes = vec![0; area::BYTES];
        snapshot::write(board.state(), &mut bytes);
        area::read(&bytes).expect("a sound area")
    }

    #[test]
    fn payers_and_what_is_free() {
        let table = table();
        assert_eq!(payer(&table, 1), Some(1));
        assert_eq!(payer(&table, 6), Some(3));
        assert_eq!(payer(&table, 8), None);
        assert_eq!(free(&table, 1), Some(1_000_000 - 256 - 11_000));
        assert_eq!(free(&table, 5), Some(10_000 - 128 - 1_000));
        assert_eq!(free(&table, 6), Some(600));
        assert_eq!(free(&table, 7), Some(0));
        assert_eq!(free(&table, 8), None);
        assert_eq!(above(&table, 3), [2, 1]);
        assert_eq!(above(&table, 1), []);
    }
}
