//! A timeline as an SVG picture: who ran when in some periods, and what each row got in all periods,
//! both against its share.

mod bars;
mod columns;
mod events;
mod figures;
mod legend;
mod marks;
mod meters;
mod scene;
mod sheet;
mod style;
mod summary;
mod window;

use carv_text::figures::wrapped;
use carv_watch::Timeline;
use scene::Scene;
use sheet::Sheet;
use style::{TEXT, TITLE};

/// How many periods are shown ms by ms.
pub const SHOWN: u64 = 10;

/// What stands above a picture.
#[derive(Clone, Debug, Default)]
pub struct Look {
    /// The title.
    pub title: String,
    /// What the picture is about, in a sentence or two; may be empty.
    pub subtitle: String,
}

/// The picture as SVG text. `from` is a tick in the first of the periods shown ms by ms; if no tick
/// of that period was seen, the next one is shown, or the last if there is none. None stands for the
/// first tick seen.
pub fn draw(timeline: &Timeline, look: &Look, from: Option<u64>) -> String {
    let scene = Scene::new(timeline, from);
    let mut sheet = Sheet::new(&scene);
    sheet.line_of_text((24.0, 40.0), TITLE, &look.title);
    let mut y = 40.0;
    for line in wrapped(&look.subtitle, 160) {
        y += 23.0;
        sheet.line_of_text((24.0, y), TEXT, &line);
    }
    if scene.numbers.is_empty() {
        sheet.line_of_text((24.0, y + 33.0), TEXT, "No tick was seen.");
        return sheet.finish(y + 60.0, &look.title);
    }
    let bottom = window::draw(&mut sheet, &scene, y + 33.0);
    let bottom = summary::draw(&mut sheet, &scene, bottom + 40.0);
    let bottom = events::list(&mut sheet, &scene, bottom);
    sheet.finish(bottom + 8.0, &look.title)
}
