//! Account calls alone: document 01's refusals and the Rust's view of whose child it is.

use carv_oracle::account::{
    Account, Outcome, PERIOD, carve_out, charge_cpu, charge_memory, open, refill, release_child,
    release_foreign_child, release_memory,
};

const ACCOUNT: Account = Account {
    cpu_allowance: 8_000_000,
    memory_limit: 1_000,
    period_start: 5,
    cpu_left: 300,
    cpu_reserved: 2_000_000,
    memory_used: 100,
    memory_reserved: 600,
};

fn accepted(account: Account) -> Outcome {
    Outcome {
        number: 0,
        renewed: false,
        account: Some(account),
        child: None,
    }
}

fn refused(number: u8, account: Account) -> Outcome {
    Outcome {
        number,
        ..accepted(account)
    }
}

#[test]
fn opening() {
    assert_eq!(PERIOD, 10_000_000);
    let opened = Account {
        cpu_allowance: PERIOD,
        memory_limit: 1,
        period_start: 2,
        cpu_left: PERIOD,
        ..Account::default()
    };
    assert_eq!(open(PERIOD, 1, 2), accepted(opened));
    let above = open(PERIOD + 1, 1, 2);
    assert_eq!((above.number, above.account), (2, None));
}

#[test]
fn renewal_keeps_the_phase() {
    assert_eq!(refill(ACCOUNT, 4), accepted(ACCOUNT));
    assert_eq!(refill(ACCOUNT, PERIOD + 4), accepted(ACCOUNT));
    let renewed = Account {
        period_start: 3 * PERIOD + 5,
        cpu_left: 6_000_000,
        ..ACCOUNT
    };
    let outcome = Outcome {
        renewed: true,
        ..accepted(renewed)
    };
    assert_eq!(refill(ACCOUNT, 4 * PERIOD + 4), outcome);
}

#[test]
fn cpu_charge() {
    let spent = Account {
        cpu_left: 0,
        ..ACCOUNT
    };
    assert_eq!(charge_cpu(ACCOUNT, 300, 5), accepted(spent));
    assert_eq!(charge_cpu(ACCOUNT, 301, 5), refused(12, ACCOUNT));
    let renewed = Account {
        period_start: PERIOD + 5,
        cpu_left: 6_000_000,
        ..ACCOUNT
    };
    let late = charge_cpu(ACCOUNT, 6_000_001, PERIOD + 5);
    assert_eq!(late, refused(12, renewed));
}

#[test]
fn memory_charge_and_release() {
    let full = Account {
        memory_used: 400,
        ..ACCOUNT
    };
    assert_eq!(charge_memory(ACCOUNT, 300), accepted(full));
    assert_eq!(charge_memory(ACCOUNT, 301), refused(12, ACCOUNT));
    let empty = Account {
        memory_used: 0,
        ..ACCOUNT
    };
    assert_eq!(release_memory(ACCOUNT, 100), accepted(empty));
    assert_eq!(release_memory(ACCOUNT, 101), refused(11, ACCOUNT));
}

#[test]
fn carve_out_and_return() {
    let carved = carve_out(ACCOUNT, 300, 300, 5);
    let parent = Account {
        cpu_left: 0,
        cpu_reserved: 2_000_300,
        memory_reserved: 900,
        ..ACCOUNT
    };
    let child = Account {
        cpu_allowance: 300,
        memory_limit: 300,
        period_start: 5,
        cpu_left: 300,
        ..Account::default()
    };
    assert_eq!((carved.number, carved.account), (0, Some(parent)));
    assert_eq!(carved.child, Some(child));
    assert_eq!(carve_out(ACCOUNT, 301, 300, 5), refused(12, ACCOUNT));
    assert_eq!(carve_out(ACCOUNT, 300, 301, 5), refused(12, ACCOUNT));

    let back = Account {
        cpu_left: 0,
        ..ACCOUNT
    };
    assert_eq!(release_child(parent, child), accepted(back));
}

#[test]
fn child_that_can_not_be_returned() {
    let fits = Account {
        cpu_allowance: 2_000_000,
        memory_limit: 600,
        ..Account::default()
    };
    assert_eq!(release_child(ACCOUNT, fits).number, 0);
    let cpu_above = Account {
        cpu_allowance: 2_000_001,
        ..fits
    };
    let memory_above = Account {
        memory_limit: 601,
        ..fits
    };
    let used = Account {
        memory_used: 1,
        ..fits
    };
    let cpu_reserved = Account {
        cpu_reserved: 1,
        ..fits
    };
    let memory_reserved = Account {
        memory_reserved: 1,
        ..fits
    };
    for child in [cpu_above, memory_above, used, cpu_reserved, memory_reserved] {
        let outcome = release_child(ACCOUNT, child);
        assert_eq!((outcome.number, outcome.account), (15, Some(ACCOUNT)));
        assert_eq!(outcome.child, Some(child));
    }
}

#[test]
fn foreign_child() {
    // 01 accepts it where the limits fit, since an account alone can't see whose child it is.
    let child = Account::default();
    assert_eq!(release_child(ACCOUNT, child).number, 0);
    let outcome = release_foreign_child(ACCOUNT, child);
    assert_eq!((outcome.number, outcome.account), (15, Some(ACCOUNT)));
    assert_eq!(outcome.child, Some(child));
}
