//! The sorter's day: a report on its calls says what the day noted by itself.

use crate::run::{Run, service};
use sorter::{day, dayfile};

#[test]
fn what_the_day_noted() {
    let day = day::run(&dayfile::sorter()).expect("only the carve-out that is noted is refused");
    let mut run = Run::new();
    for line in &day.calls {
        run.line(line);
    }
    let report = run.report();
    for (of_day, noted) in day.plan.services.iter().zip(&day.noted) {
        let row = service(&report, &of_day.name);
        let total = &row.figures.total;
        assert_eq!(total.ms_ran, noted.run_ticks, "{}", of_day.name);
        assert_eq!(row.memory.most_below, noted.memory, "{}", of_day.name);
        assert_eq!(
            row.memory.limit, of_day.limits.memory_bytes,
            "{}",
            of_day.name
        );
        let share = of_day.limits.cpu_ns;
        assert_eq!(total.shares_ns, Some((share, share)), "{}", of_day.name);
        assert_eq!(total.periods_missed(), 0, "{}", row.answer());
        assert!(
            row.answer().contains("got what it wanted"),
            "{}",
            row.answer()
        );
    }
    assert_eq!(report.services.len(), day.plan.services.len());
    assert_eq!(report.board.idle.ms_ran, day.idle_run_ticks);
    assert_eq!(report.board.refusals.total(), 1);
    let most = day
        .spent()
        .into_iter()
        .map(|spent| spent.most.map_or(0, |most| most.spent));
    let spent = report
        .budgets
        .iter()
        .map(|row| row.spent.expect("it is known").most_ns);
    assert!(most.eq(spent), "what was spent");
}
