//! The mistakes that can be planted in the model.

use std::cell::Cell;

/// Mistakes that can be planted.
#[derive(Clone, Copy, Debug, PartialEq, Eq)]
#[expect(missing_docs, reason = "the names say what is wrong")]
pub enum Mistake {
    // Of the registry.
    EveryChargeRefused,
    RemovalGivesCpuBack,
    RemovalGivesWhatIsLeftBack,
    RemovalRenewsNobody,
    RemovalRenewsBehindTheReturn,
    RemovalRenewsForEveryKind,
    RemovalRenewsThePayersPayerToo,
    RemovalRenewsTheRemovedInstead,
    RefusedRemovalRenews,
    RemovalAnswers15WhereTheBudgetRan,
    RemovalAnswers15WhereAStartIsNoMultiple,
    PlanAnswers1WhereAStartIsNoMultiple,
    StartSetToTime,
    RenewalForgetsReservations,
    KindBeforeCharge,
    BackingBeforeKind,
    RefusedCarveForgetsRenewal,
    RefusedCarveKeepsCharge,
    RefusedCpuChargeForgetsRenewal,
    ChildStartsAtTime,
    CarveLeavesCpuLeft,
    CpuChargeNotBooked,
    TableFullTooEarly,
    LastIdTooEarly,
    IdsGivenAgain,
    UnchargeAboveCharge,
    RootPaysForItself,
    ChargeRoundsUpWhereThereIsOne,
    ChargeRoundsUpBehindAnother,
    ChargeForgetsReservations,
    ChargeOf0RefusedWhereNothingIsFree,
    ChargeAsksThePayersPayerToo,
    ChargeBookedOnThePayersPayerToo,
    ChargeBookedOnTheLastPayer,
    ChargeOfABudgetBookedOnItself,
    ChargesWrap,
    ChargeRefusedWhereAStartIsNoMultiple,
    RefusedChargeBooksWhatIsFree,
    RefusedChargeTakesTheLastBack,
    SecondChargeInARowRefused,
    FourthChargeInARowRefused,
    UnchargeLeavesAByteWithThePayer,
    UnchargeKeepsTheEntry,
    TotalsLeaveTheBudgetOut,
    TotalsOfChildrenAlone,
    TotalsOfEveryBudget,
    TotalsOfEveryYoungerBudget,
    TotalsForgetReservations,
    TotalsAsIfRenewed,
    TotalsInTheAccountsOrder,
    TotalsOfOtherKindsAre0,
    TotalsOfMissingIdsAre0,
    TotalsLeaveOutWhereAStartIsNoMultiple,
    // Of the threads.
    PlanningRenewsEveryBudget,
    PlanningRenewsNoBudget,
    TickRefusedWhereLessIsLeft,
    TickTakesTheRestFromThePayer,
    TickRenewsNoBudget,
    OnlyFirstTickBooked,
    RunTicksMadeUp,
    RunTicksStopAtTheLast,
    SwitchesMadeUp,
    SwitchesStopAtTheLast,
    LastTickTooEarly,
    AlwaysNoSwitch,
    AlwaysIdle,
    IdleInQueue,
    IdleReadyWhenLeft,
    PutBackInFront,
    PutBackAlsoBlocked,
    DeadThreadKept,
    KilledCurrentGoesAtOnce,
    KilledStaysInQueue,
    SecondKillNotLogged,
    NewestExitForgotten,
    ExitLogTooShort,
    ExitOfGivesNewest,
    MissingBudgetHasTime,
    SleepersByFallingId,
    SleepersWakeLate,
    EveryWaitIsASleep,
    SleepersKeepResults,
    WakeKeepsResults,
    WakeKeepsWait,
    StartKeepsContext,
    StackBeforePlace,
    BudgetLookedUp,
    DeadThreadBlocks,
    MissingThreadBeforeWait,
    KillForgetsWait,
    ThreadsFullTooEarly,
    // Of what is lent.
    StateHandedBack,
    RowNotCleared,
    ThreadRowNotCleared,
    AnswerOnRefusal,
    AnswerPastItsWords,
    RootWrittenForTheKernel,
    NoSwitchWritesIds,
    OpeningKeepsOldRows,
    ImageNotFilled,
    ImageOnRefusal,
    ImageOfOtherBytes,
    ImageWordsExchanged,
    ImageWithoutItsLastStep,
    ImageCallFillsNothing,
    AnswerLengthNotAsked,
    ImageLengthNotAsked,
    ImageCallLengthNotAsked,
    ImageWrittenAtAnotherLength,
    // Of question 1.
    SumsWrap,
    SumOfChargesNotAsked,
    SumOfMemoryReservationsNotAsked,
    SumOfCpuReservationsNotAsked,
    RestNotAsked,
    AccountsOfOthersNotAsked,
    PayerKindNotAsked,
    ThreadIdsNotAsked,
    StatesNotAsked,
    WaitsNotAsked,
    WaitsOfOthersNotAsked,
    BudgetFlagNotAsked,
    SpaceFlagNotAsked,
    QueueTwiceNotAsked,
    QueueStatesNotAsked,
    ReadyOutsideQueueNotAsked,
    IdleInQueueNotAsked,
    SecondDeadNotAsked,
    SecondRunningNotAsked,
    CurrentNotAsked,
    InactiveCurrentNotAsked,
    IdleNotAsked,
    IdleStateNotAsked,
    IdleCurrentNotAsked,
    BudgetsOfThreadsNotAsked,
    CausesNotAsked,
}

/// An accepted charge, for mistakes that remember it from one call to the next.
#[derive(Clone, Copy, Debug)]
pub(super) struct LastCharge {
    pub id: u64,
    pub payer: u64,
    pub bytes: u64,
    /// The charge that the object has then.
    pub charge: u64,
    /// How many charges of this object it is the last of.
    pub in_a_row: u64,
}

thread_local! {
    static PLANTED: Cell<Option<Mistake>> = const { Cell::new(None) };
    static LAST_CHARGE: Cell<Option<LastCharge>> = const { Cell::new(None) };
}

/// Plants a mistake for this thread, or none.
pub fn plant(mistake: Option<Mistake>) {
    PLANTED.set(mistake);
    LAST_CHARGE.set(None);
}

pub(super) fn last_charge() -> Option<LastCharge> {
    LAST_CHARGE.get()
}

pub(super) fn remember(charge: LastCharge) {
    LAST_CHARGE.set(Some(charge));
}

pub(super) fn planted(mistake: Mistake) -> bool {
    PLANTED.get() == Some(mistake)
}
