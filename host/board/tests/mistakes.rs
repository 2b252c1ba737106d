//! The comparison finds mistakes: each is planted in the mock in turn.

use carv_board_host::charges::{self, CASES, Case, Law};
use carv_board_host::mock::{Mistake, plant};
use carv_board_host::tally::REMOVALS;
use carv_board_host::{damaged, runs, short, sound};
use carv_compare::board::numbers;
use carv_compare::board::removal::Removal;
use carv_compare::board::totals::Whose;

const SEED: u64 = 1;

/// Runs with no mistake planted afterwards, whatever happens.
fn with<T>(mistake: Mistake, run: impl FnOnce() -> T) -> T {
    plant(Some(mistake));
    let found = run();
    plant(None);
    found
}

#[test]
fn random_lists_reach_every_answer() {
    let tally = runs::random(100_000, SEED).expect("no difference");
    for (op, number) in numbers::all() {
        let found = tally.of(op, number);
        assert!(found > 4, "{op:?} with {number}: {found}");
    }
    for removal in Removal::all() {
        let found = tally.removals(removal);
        assert!(found > 4, "{removal:?}: {found}");
    }
    for whose in Whose::ALL {
        let found = tally.totals(whose);
        assert!(found > 4, "{whose:?}: {found}");
    }
    let reached = tally.reached();
    assert_eq!((reached.objects, reached.threads), (512, 128));
    assert!(reached.kills > 33);
}

#[test]
fn damage_breaks_every_rule() {
    let report = damaged::damaged(8_000, SEED).expect("no difference");
    for rule in sound::rules() {
        let found = report.broken(rule);
        assert!(found > 10, "{rule}: {found}");
    }
}

/// And they meet removals with the payer due and not due, and those that are accepted also with a
/// clock that fell.
#[test]
fn short_lists_agree() {
    let tally = short::short(3).expect("no difference");
    for ((name, is_meant), clocks) in REMOVALS.into_iter().zip([3, 3, 2]) {
        let found = tally.removals_by_clock(is_meant);
        let met = found[..clocks].iter().all(|count| *count > 0);
        assert!(met, "{name}: {found:?}");
    }
    for whose in Whose::ALL {
        let is_met = tally.totals(whose) > 0;
        // Three calls carve no tree of four levels.
        assert_eq!(is_met, whose != Whose::Deep, "{whose:?}");
    }
}

/// The wrong renewals of a removal.
const REMOVALS_RENEW_WRONGLY: [Mistake; 6] = [
    Mistake::RemovalRenewsNobody,
    Mistake::RemovalRenewsBehindTheReturn,
    Mistake::RemovalRenewsForEveryKind,
    Mistake::RemovalRenewsThePayersPayerToo,
    Mistake::RemovalRenewsTheRemovedInstead,
    Mistake::RefusedRemovalRenews,
];

/// Wrong totals.
const TOTALS_ARE_WRONG: [Mistake; 9] = [
    Mistake::TotalsLeaveTheBudgetOut,
    Mistake::TotalsOfChildrenAlone,
    Mistake::TotalsOfEveryBudget,
    Mistake::TotalsOfEveryYoungerBudget,
    Mistake::TotalsForgetReservations,
    Mistake::TotalsAsIfRenewed,
    Mistake::TotalsInTheAccountsOrder,
    Mistake::TotalsOfOtherKindsAre0,
    Mistake::TotalsOfMissingIdsAre0,
];

#[test]
fn random_and_short_lists_find_mistakes_in_totals() {
    for mistake in TOTALS_ARE_WRONG {
        random_lists_find(mistake);
        let found = with(mistake, || short::short(3));
        assert!(found.is_err(), "{mistake:?} was not found");
    }
}

#[test]
fn random_lists_find_mistakes_in_the_registry() {
    for mistake in REMOVALS_RENEW_WRONGLY.into_iter().chain([
        Mistake::EveryChargeRefused,
        Mistake::RemovalGivesCpuBack,
        Mistake::RemovalGivesWhatIsLeftBack,
        Mistake::RemovalAnswers15WhereTheBudgetRan,
        Mistake::StartSetToTime,
        Mistake::RenewalForgetsReservations,
        Mistake::KindBeforeCharge,
        Mistake::BackingBeforeKind,
        Mistake::RefusedCarveForgetsRenewal,
        Mistake::RefusedCarveKeepsCharge,
        Mistake::RefusedCpuChargeForgetsRenewal,
        Mistake::ChildStartsAtTime,
        Mistake::CarveLeavesCpuLeft,
        Mistake::CpuChargeNotBooked,
        Mistake::TableFullTooEarly,
        Mistake::LastIdTooEarly,
        Mistake::IdsGivenAgain,
        Mistake::UnchargeAboveCharge,
        Mistake::RootPaysForItself,
    ]) {
        random_lists_find(mistake);
    }
}

#[test]
fn random_lists_find_mistakes_in_threads() {
    for mistake in [
        Mistake::PlanningRenewsEveryBudget,
        Mistake::PlanningRenewsNoBudget,
        Mistake::TickRefusedWhereLessIsLeft,
        Mistake::TickTakesTheRestFromThePayer,
        Mistake::TickRenewsNoBudget,
        Mistake::OnlyFirstTickBooked,
        Mistake::RunTicksMadeUp,
        Mistake::RunTicksStopAtTheLast,
        Mistake::SwitchesMadeUp,
        Mistake::SwitchesStopAtTheLast,
        Mistake::LastTickTooEarly,
        Mistake::AlwaysNoSwitch,
        Mistake::AlwaysIdle,
        Mistake::IdleInQueue,
        Mistake::IdleReadyWhenLeft,
        Mistake::PutBackInFront,
        Mistake::PutBackAlsoBlocked,
        Mistake::DeadThreadKept,
        Mistake::KilledCurrentGoesAtOnce,
        Mistake::KilledStaysInQueue,
        Mistake::SecondKillNotLogged,
        Mistake::NewestExitForgotten,
        Mistake::ExitLogTooShort,
        Mistake::ExitOfGivesNewest,
        Mistake::MissingBudgetHasTime,
        Mistake::SleepersByFallingId,
        Mistake::SleepersWakeLate,
        Mistake::EveryWaitIsASleep,
        Mistake::SleepersKeepResults,
        Mistake::WakeKeepsResults,
        Mistake::WakeKeepsWait,
        Mistake::StartKeepsContext,
        Mistake::StackBeforePlace,
        Mistake::BudgetLookedUp,
        Mistake::DeadThreadBlocks,
        Mistake::MissingThreadBeforeWait,
        Mistake::KillForgetsWait,
        Mistake::ThreadsFullTooEarly,
    ] {
        random_lists_find(mistake);
    }
}

#[test]
fn random_lists_find_mistakes_in_what_is_lent() {
    for mistake in [
        Mistake::StateHandedBack,
        Mistake::RowNotCleared,
        Mistake::ThreadRowNotCleared,
        Mistake::AnswerOnRefusal,
        Mistake::AnswerPastItsWords,
        Mistake::RootWrittenForTheKernel,
        Mistake::NoSwitchWritesIds,
        Mistake::OpeningKeepsOldRows,
        Mistake::ImageNotFilled,
        Mistake::ImageOnRefusal,
        Mistake::ImageOfOtherBytes,
        Mistake::ImageWordsExchanged,
        Mistake::ImageWithoutItsLastStep,
        Mistake::ImageCallFillsNothing,
    ] {
        random_lists_find(mistake);
    }
}

fn random_lists_find(mistake: Mistake) {
    let found = with(mistake, || runs::first_difference(300_000, SEED));
    assert!(found.is_err(), "{mistake:?} was not found");
}

#[test]
fn short_lists_find_mistakes_in_calls() {
    for mistake in REMOVALS_RENEW_WRONGLY.into_iter().chain([
        Mistake::RemovalGivesCpuBack,
        Mistake::RemovalAnswers15WhereTheBudgetRan,
        Mistake::StartSetToTime,
        Mistake::RefusedCarveForgetsRenewal,
        Mistake::RefusedCarveKeepsCharge,
        Mistake::UnchargeAboveCharge,
        Mistake::RowNotCleared,
        Mistake::PlanningRenewsEveryBudget,
        Mistake::PlanningRenewsNoBudget,
        Mistake::TickRefusedWhereLessIsLeft,
        Mistake::OnlyFirstTickBooked,
        Mistake::RunTicksMadeUp,
        Mistake::SwitchesMadeUp,
        Mistake::AlwaysNoSwitch,
        Mistake::AlwaysIdle,
        Mistake::PutBackInFront,
        Mistake::PutBackAlsoBlocked,
        Mistake::DeadThreadKept,
        Mistake::KilledCurrentGoesAtOnce,
        Mistake::KilledStaysInQueue,
        Mistake::MissingBudgetHasTime,
        Mistake::SleepersWakeLate,
        Mistake::EveryWaitIsASleep,
    ]) {
        let found = with(mistake, || short::short(3));
        assert!(found.is_err(), "{mistake:?} was not found");
    }
}

#[test]
fn damaged_areas_find_mistakes_in_question_1() {
    for mistake in [
        Mistake::SumsWrap,
        Mistake::SumOfChargesNotAsked,
        Mistake::SumOfMemoryReservationsNotAsked,
        Mistake::SumOfCpuReservationsNotAsked,
        Mistake::RestNotAsked,
        Mistake::AccountsOfOthersNotAsked,
        Mistake::PayerKindNotAsked,
        Mistake::AnswerLengthNotAsked,
        Mistake::ImageLengthNotAsked,
        Mistake::ImageCallLengthNotAsked,
        Mistake::ImageWrittenAtAnotherLength,
        Mistake::ThreadIdsNotAsked,
        Mistake::StatesNotAsked,
        Mistake::WaitsNotAsked,
        Mistake::WaitsOfOthersNotAsked,
        Mistake::BudgetFlagNotAsked,
        Mistake::SpaceFlagNotAsked,
        Mistake::QueueTwiceNotAsked,
        Mistake::QueueStatesNotAsked,
        Mistake::ReadyOutsideQueueNotAsked,
        Mistake::IdleInQueueNotAsked,
        Mistake::SecondDeadNotAsked,
        Mistake::SecondRunningNotAsked,
        Mistake::CurrentNotAsked,
        Mistake::InactiveCurrentNotAsked,
        Mistake::IdleNotAsked,
        Mistake::IdleStateNotAsked,
        Mistake::IdleCurrentNotAsked,
        Mistake::BudgetsOfThreadsNotAsked,
        Mistake::CausesNotAsked,
    ] {
        let found = with(mistake, || damaged::damaged(8_000, SEED));
        assert!(found.is_err(), "{mistake:?} was not found");
    }
}

/// On areas that are damaged and still sound there is no Rust beside the port: a call must answer a
/// number of its own. No list of calls finds these mistakes.
#[test]
fn damaged_areas_find_numbers_that_are_not_the_call_s_own() {
    for (mistake, expected) in [
        (
            Mistake::RemovalAnswers15WhereAStartIsNoMultiple,
            "the number is 15, which remove never",
        ),
        (
            Mistake::PlanAnswers1WhereAStartIsNoMultiple,
            "the number is 1, which plan never",
        ),
    ] {
        let by_lists = with(mistake, || runs::first_difference(100_000, SEED));
        assert!(by_lists.is_ok());
        let found = with(mistake, || damaged::damaged(8_000, SEED));
        let why = found.expect_err("a difference");
        assert!(why.contains(expected), "{why}");
    }
}

/// But totals are compared there with the area's words.
#[test]
fn damaged_areas_find_mistakes_in_totals() {
    let unmet = Mistake::TotalsLeaveOutWhereAStartIsNoMultiple;
    let by_lists = with(unmet, || runs::first_difference(100_000, SEED));
    assert!(by_lists.is_ok());
    let found = with(unmet, || damaged::damaged(8_000, SEED));
    let why = found.expect_err("a difference");
    assert!(why.contains("the totals are ["), "{why}");
    for mistake in [
        Mistake::TotalsOfOtherKindsAre0,
        Mistake::TotalsOfMissingIdsAre0,
    ] {
        let found = with(mistake, || damaged::damaged(8_000, SEED));
        let why = found.expect_err("a difference");
        assert!(why.starts_with("area "), "{mistake:?}: {why}");
    }
}

#[test]
fn laws_of_charges_meet_every_case() {
    let report = charges::charges(2_000, SEED).expect("no difference");
    for (case, name) in CASES {
        let found = report.case(case);
        assert!(found > 10, "{name}: {found}");
    }
    for law in Law::ALL {
        let [accepted, refused, unsound] = report.law(law);
        let is_met = accepted > 100 || law == Law::TooLarge && accepted == 0;
        let found = format!("{law:?}: {accepted}, {refused}, {unsound}");
        assert!(is_met && refused > 100 && unsound > 100, "{found}");
    }
    // These come only where a charge is refused, and not each time.
    for (case, law) in [
        (Case::FirstPasses, Law::Split),
        (Case::OrderMatters, Law::OnePayer),
    ] {
        assert!(report.case(case) < report.law(law)[1], "{case:?}");
    }
}

/// A mistake, the law that finds it, and what it says.
type Broken = (Mistake, Law, &'static str);

/// Found by what the law compares. Each call is also held to the rule, but that is told last.
const CHARGES_BREAK_LAWS: [Broken; 20] = [
    (
        Mistake::ChargeRoundsUpWhereThereIsOne,
        Law::Split,
        "a, then b, against a + b: the area differs",
    ),
    (
        Mistake::SecondChargeInARowRefused,
        Law::Split,
        "a, then b: refused; a + b: accepted",
    ),
    (
        Mistake::ChargeAsksThePayersPayerToo,
        Law::Split,
        "a, then b: accepted; a + b: refused",
    ),
    (
        Mistake::ChargeOf0RefusedWhereNothingIsFree,
        Law::Split,
        "a, then b: refused; a + b: accepted",
    ),
    (
        Mistake::RefusedChargeBooksWhatIsFree,
        Law::Split,
        "a + b, refused, against before: the area differs",
    ),
    (
        Mistake::RefusedChargeTakesTheLastBack,
        Law::Split,
        "a, then b, refused, against a alone: the area differs",
    ),
    (
        Mistake::ChargeOfABudgetBookedOnItself,
        Law::Split,
        "a, then b: refused with 1; a + b: refused with 12",
    ),
    (
        Mistake::FourthChargeInARowRefused,
        Law::List,
        "the list: refused; the sum: accepted",
    ),
    (
        Mistake::ChargeRoundsUpWhereThereIsOne,
        Law::List,
        "the list, against the sum: the area differs",
    ),
    (
        Mistake::ChargeOf0RefusedWhereNothingIsFree,
        Law::List,
        "the list in another order: refused; the sum: accepted",
    ),
    (Mistake::ChargesWrap, Law::TooLarge, "accepted throughout"),
    (
        Mistake::UnchargeLeavesAByteWithThePayer,
        Law::Undo,
        "both, against before: the area differs",
    ),
    (
        Mistake::UnchargeKeepsTheEntry,
        Law::Undo,
        "both, against before: the area differs",
    ),
    (
        Mistake::ChargeForgetsReservations,
        Law::Undo,
        "the uncharge is refused with 1",
    ),
    (
        Mistake::ChargeAsksThePayersPayerToo,
        Law::TwoPayers,
        " answers 0 if it is made first, 12 if second",
    ),
    (
        Mistake::ChargeBookedOnThePayersPayerToo,
        Law::TwoPayers,
        " answers 0 if it is made first, 1 if second",
    ),
    (
        Mistake::ChargeBookedOnTheLastPayer,
        Law::TwoPayers,
        " answers 0 if it is made first, 12 if second",
    ),
    (
        Mistake::ChargeRoundsUpBehindAnother,
        Law::TwoPayers,
        "b, then a, against a, then b: the area differs",
    ),
    (
        Mistake::ChargeRoundsUpBehindAnother,
        Law::OnePayer,
        "b, then a, against a, then b: the area differs",
    ),
    (
        Mistake::ChargeOf0RefusedWhereNothingIsFree,
        Law::OnePayer,
        "each passes if it is made first; made second, ",
    ),
];

/// In one of these runs at least, the law tells of it, not the rule or the boards beside the Rust.
#[test]
fn laws_of_charges_find_mistakes() {
    for (mistake, law, part) in CHARGES_BREAK_LAWS {
        let mut runs = (1..=40).map(|seed| with(mistake, || charges::only(&[law], 400, seed)));
        let is_found = runs.any(|run| run.is_err_and(|why| why.contains(part)));
        assert!(is_found, "{mistake:?} does not break {law:?}: {part}");
    }
}

/// A call that breaks no law is held to the rule, on damaged areas too.
#[test]
fn charges_are_held_to_the_rule() {
    for (mistake, parts) in [
        (Mistake::EveryChargeRefused, ["the number is 12, not 0", ""]),
        (
            Mistake::UnchargeAboveCharge,
            ["): the number is 0, not 11", ""],
        ),
        (
            Mistake::ChargeRefusedWhereAStartIsNoMultiple,
            ["the number is 12, not 0", "\nrule broken: none"],
        ),
        (
            Mistake::CausesNotAsked,
            [
                "the number is 0, not 1",
                "\nrule broken: every cause is listed",
            ],
        ),
    ] {
        let mut runs = (1..=10).map(|seed| with(mistake, || charges::charges(2_000, seed)));
        let is_found = runs.any(|run| {
            run.is_err_and(|why| {
                why.starts_with("area ") && parts.iter().all(|part| why.contains(part))
            })
        });
        assert!(is_found, "{mistake:?} was not found");
    }
}

/// By this seed each of these mistakes is found after a few hundred calls on a board.
const EARLY: u64 = 6;

#[test]
fn findings_are_short() {
    for (mistake, most) in [
        (Mistake::IdsGivenAgain, 6),
        (Mistake::RemovalRenewsBehindTheReturn, 4),
        (Mistake::TotalsOfChildrenAlone, 5),
        (Mistake::AlwaysIdle, 3),
        (Mistake::MissingBudgetHasTime, 8),
        (Mistake::ExitOfGivesNewest, 6),
    ] {
        let found = with(mistake, || runs::random(300_000, EARLY));
        let finding = found.expect_err("a finding");
        assert!(finding.steps.len() <= most, "{mistake:?}: {finding}");
    }
}
