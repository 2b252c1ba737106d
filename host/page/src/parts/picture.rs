//! The picture, in the page itself.

use crate::html::Html;
use crate::page::Picture;

/// The picture with its caption. On a narrow screen it can be moved sideways.
pub fn write(html: &mut Html, picture: &Picture) {
    let (svg, caption, alternative) = match picture {
        Picture::Missing(why) => return html.leaf("p", &[], why),
        Picture::Drawn {
            svg,
            caption,
            alternative,
        } => (svg, caption, alternative),
    };
    html.element("figure", &[], |html| {
        let attributes = [
            ("class", "drawing"),
            ("role", "img"),
            ("aria-label", alternative.as_str()),
            ("tabindex", "0"),
        ];
        html.element("div", &attributes, |html| html.raw(element(svg)));
        html.leaf("figcaption", &[], caption);
    });
}

/// The element of an SVG file: what stands before it is for files alone.
fn element(svg: &str) -> &str {
    svg.find("<svg").map_or("", |begin| &svg[begin..])
}
