//! What document 01 asks of a charge and of an uncharge, on the words of a sound area, with true
//! sums.

use crate::area::{self, OBJECTS, ObjectField as Field};
use carv_compare::board::call::Call;

/// Document 01's number for an object that isn't there.
pub const MISSING: u64 = 7;
/// Document 01's number for an uncharge above the recorded charge.
pub const CHARGE: u64 = 11;
/// Document 01's number for a charge that the payer can't cover.
pub const LIMIT: u64 = 12;

/// Makes the call on these words: its number. A refused one leaves them.
///
/// # Panics
/// If the call is of another kind, or the area not sound.
pub fn make(call: Call, area: &mut [u8]) -> u64 {
    let (Call::ChargeMore { id, bytes } | Call::Uncharge { id, bytes }) = call else {
        panic!("{call} is no charge");
    };
    let Some(place) = place(area, id) else {
        return MISSING;
    };
    let payer = self::place(area, get(area, Field::Payer, place)).expect("a payer is there");
    let charge = get(area, Field::Charge, place);
    let used = get(area, Field::MemoryUsed, payer);
    if let Call::ChargeMore { .. } = call {
        let reserved = get(area, Field::MemoryReserved, payer);
        let limit = get(area, Field::MemoryLimit, payer);
        let sum = [used, reserved, bytes].map(u128::from).iter().sum::<u128>();
        if sum > limit.into() {
            return LIMIT;
        }
        set(area, Field::Charge, place, charge + bytes);
        set(area, Field::MemoryUsed, payer, used + bytes);
    } else {
        if bytes > charge {
            return CHARGE;
        }
        set(area, Field::Charge, place, charge - bytes);
        set(area, Field::MemoryUsed, payer, used - bytes);
    }
    0
}

/// The place of the object with this id.
fn place(area: &[u8], id: u64) -> Option<usize> {
    let rows = OBJECTS.length(area).unwrap_or(0);
    (0..rows).find(|place| get(area, Field::Id, *place) == id)
}

fn get(area: &[u8], field: Field, place: usize) -> u64 {
    area::word(area, OBJECTS.row(place) + field as usize)
}

fn set(area: &mut [u8], field: Field, place: usize, value: u64) {
    area::set_word(area, OBJECTS.row(place) + field as usize, value);
}

#[cfg(test)]
mod tests {
    use super::*;
    use crate::snapshot;
    use carv_compare::board::call::Op;
    use carv_compare::board::reference::Reference;
    use carv_compare::board::walk::Walk;
    use std::collections::BTreeSet;

    /// On random boards, without the port.
    #[test]
    fn it_is_what_the_rust_does() {
        let mut walk = Walk::new(1);
        let mut board = Reference::default();
        let mut found = vec![0; area::BYTES];
        let mut expected = vec![0; area::BYTES];
        let mut met = BTreeSet::new();
        for _ in 0..20_000 {
            let call = walk.next_call(board.state());
            board.call(call);
            for op in [Op::ChargeMore, Op::Uncharge] {
                let call = walk.call(op, board.state());
                snapshot::write(board.state(), &mut found);
                let number = make(call, &mut found);
                assert_eq!(number, board.call(call).number, "{call}");
                snapshot::write(board.state(), &mut expected);
                assert!(found == expected, "{call}");
                met.insert((op, number));
            }
        }
        let all = [
            (Op::ChargeMore, 0),
            (Op::ChargeMore, MISSING),
            (Op::ChargeMore, LIMIT),
            (Op::Uncharge, 0),
            (Op::Uncharge, MISSING),
            (Op::Uncharge, CHARGE),
        ];
        assert!(met.into_iter().eq(all));
    }
}
