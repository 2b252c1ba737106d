//! `carv dump`: a kept board readably.

mod budgets;
mod tables;

use crate::answer::{account_fields, code_json, object_fields, thread_fields, totals_fields};
use crate::area::AreaFile;
use crate::check::figures;
use crate::codes::CAUSES;
use crate::figures::count;
use crate::kept_names;
use crate::names::Names;
use crate::options::Kept;
use crate::output::Output;
use crate::status::{Failure, Status};
use crate::text::thread_id;
use carv_layout::area::{self, Exit, ObjectRow, Table, ThreadRow, Totals};
use carv_layout::{BUDGET, sound};
use carv_text::json::Json;
use std::collections::BTreeMap;

/// Prints a file and answers the exit status.
pub fn dump(kept: &Kept, out: &mut Output) -> Result<Status, Failure> {
    let file = AreaFile::read(&kept.path)?;
    let names = kept_names::of(kept);
    let is_sound = sound::is_sound(&file.bytes);
    if kept.json {
        out.line(json(&file.bytes, &names))?;
    } else {
        if !is_sound {
            let why = file.wrong_length();
            let why = why.unwrap_or("`carv check` says why".to_string());
            out.line(format_args!(
                "WARNING: this is no sound board, trust none of its figures: {why}.\n"
            ))?;
        }
        out.text(text(&file.bytes, &names))?;
        out.flush()?;
        kept_names::tell(kept);
    }
    Ok(if is_sound {
        Status::Fine
    } else {
        Status::Unsound
    })
}

/// What is readable of an area, as text.
pub fn text(area: &[u8], names: &Names) -> String {
    let Some(table) = area::read_what_fits(area) else {
        return "Nothing of it can be read.\n".to_string();
    };
    let unreadable = area::PARTS
        .iter()
        .filter(|part| part.length(area).is_none());
    let unreadable = unreadable.map(|part| {
        let (rows, name, places) = (area::word(area, part.count), part.name, part.places);
        format!("The {name} table tells of {rows} rows, it has {places} places: it isn't read.\n")
    });
    let (current, switches) = (thread_id(table.current), table.switches);
    let switches = count(switches, "switch", "switches");
    let heading = format!("Board: {}\n", figures(&table));
    let running = format!("Current: {current}, after {switches}\n");
    let parts = [
        heading + &running + &unreadable.collect::<String>(),
        budgets::text(&table, names),
        budgets::totals(&table, names),
        tables::objects(&table, names),
        tables::threads(&table, names),
        tables::queue(&table),
        tables::exits(&table),
    ];
    parts.join("\n")
}

/// What is readable of an area, as JSON.
pub fn json(area: &[u8], names: &Names) -> Json {
    let sound = ("sound", sound::is_sound(area).into());
    let Some(table) = area::read_what_fits(area) else {
        return Json::object([("board", Json::object([sound]))]);
    };
    let Table {
        objects,
        threads,
        exits,
        ..
    } = &table;
    let budget = |row: &ObjectRow| row.kind == BUDGET;
    let totals = area::totals(objects);
    let budgets = objects.iter().filter(|row| budget(row));
    let others = objects.iter().filter(|row| !budget(row));
    let board = Json::object([
        sound,
        ("next_id", table.next_id.into()),
        ("current", table.current.into()),
        ("switches", table.switches.into()),
        (
            "budgets",
            Json::list(budgets.map(|row| budget_json(row, &totals, names))),
        ),
        (
            "objects",
            Json::list(others.map(|row| Json::object(object_fields(row)))),
        ),
        ("threads", Json::list(threads.iter().map(thread_json))),
        ("queue", Json::list(table.queue.iter().copied())),
        ("exits", Json::list(exits.iter().map(exit_json))),
    ]);
    Json::object([("board", board)])
}

fn budget_json(row: &ObjectRow, totals: &BTreeMap<u64, Totals>, names: &Names) -> Json {
    let mut fields = object_fields(row);
    fields.insert(1, ("name", names.get(row.id).into()));
    fields.extend(account_fields(row.account));
    let totals = totals.get(&row.id).copied().unwrap_or_default();
    fields.push(("totals", Json::object(totals_fields(totals))));
    Json::object(fields)
}

fn thread_json(row: &ThreadRow) -> Json {
    let mut fields = vec![("id", row.id.into())];
    fields.extend(thread_fields(row));
    Json::object(fields)
}

fn exit_json(exit: &Exit) -> Json {
    Json::object([
        ("thread", exit.thread.into()),
        ("cause", code_json(CAUSES, exit.cause)),
    ])
}
