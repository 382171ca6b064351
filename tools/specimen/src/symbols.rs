//! The symbols of points.

use crate::chain::Placing;

/// All that placed a point, with its letter.
pub const PLACINGS: [(Placing, char); 4] = [
    (Placing::Edge, 't'),
    (Placing::Strong, 's'),
    (Placing::Weak, 'w'),
    (Placing::Nothing, 'n'),
];

/// The letter of what placed a point.
fn letter(placing: Placing) -> char {
    PLACINGS
        .into_iter()
        .find(|(of, _)| *of == placing)
        .map_or('n', |(_, letter)| letter)
}

/// The name of a point's symbol, by what placed its height and its x, and whether it is on the curve.
pub fn symbol_id(height: Placing, width: Placing, on_curve: bool) -> String {
    format!("p{}{}{}", letter(height), letter(width), u8::from(on_curve))
}

/// The symbols of points: a level bar for the height, an upright one for x, a dot that is full on the curve.
pub fn symbols() -> String {
    let mut text = String::new();
    for (height, level) in PLACINGS {
        for (width, upright) in PLACINGS {
            for (on_curve, dot) in [(true, "on"), (false, "off")] {
                let id = symbol_id(height, width, on_curve);
                text += &format!(
                    r#"<g id="{id}"><circle class="hit" r="6"/><path class="bar {level}" d="M-4.5 0H4.5"/><path class="bar {upright}" d="M0-4.5V4.5"/><circle class="{dot}" r="1.7"/></g>"#
                );
            }
        }
    }
    text
}
