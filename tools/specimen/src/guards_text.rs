//! docs/GUARD.md: what the guards are worth, as text.

use crate::{
    fill::Bitmap,
    guards::{choice, Damage, Guard, Load, View, Way, SIZES},
};
use std::collections::BTreeMap;

/// What stands above the tables.
const HEAD: &str = include_str!("guards.md");

/// The ways, as the tables have them.
const WAYS: [(Way, &str); 4] = [
    (Way::Snap, "fitted, Snap"),
    (Way::Keep, "fitted, Keep"),
    (Way::Unfitted, "unfitted"),
    (Way::Larger, "Snap, a pixel larger"),
];

/// How many characters are listed that a guard misses most often.
const LISTED: usize = 12;

/// The whole text, of all loads of so many fonts, of which so many were refused.
pub fn text(loads: &[Load], fonts: &[String], refused: usize) -> String {
    let digits: Vec<&Load> = loads.iter().filter(|load| load.is_digit()).collect();
    let all: Vec<&Load> = loads.iter().collect();
    let (from, to) = (SIZES.start(), SIZES.end());
    format!(
        "{HEAD}\n{}\n\n## What was measured\n\n{} glyphs at a size, {from} to {to} pixels to the em, of {} fonts: {}. {} of them are digits. The library refused {refused}.\n\n\
        ## Damaged, and named\n\nAll:\n\n{}\nDigits:\n\n{}\n\
        ## What is chosen, and what that leaves\n\n{}\n\nAll:\n\n{}\nDigits:\n\n{}\n\
        ## What the guard on edges does not see\n\n{}\n\n## Three pictures\n\n{}",
        short(&all),
        number(all.len()),
        fonts.len(),
        fonts.join(", "),
        number(digits.len()),
        damaged(&all),
        damaged(&digits),
        CHOICE,
        chosen(&all),
        chosen(&digits),
        missed(&all),
        pictures(&all),
    )
}

/// A number with a comma between thousands.
fn number(number: usize) -> String {
    let digits = number.to_string();
    let groups = digits.as_bytes().rchunks(3).rev();
    let groups = groups.map(|group| String::from_utf8_lossy(group).into_owned());
    groups.collect::<Vec<String>>().join(",")
}

/// What the tables come to, in a few sentences.
fn short(loads: &[&Load]) -> String {
    let damaged = |way| count(loads, |load| load.view(way).damage.is_some());
    let named = |guard| {
        count(loads, |load| {
            let view = load.view(Way::Snap);
            view.damage.is_some() && view.is_named(guard)
        })
    };
    let left = |passes: &dyn Fn(&View) -> bool| {
        let sound = |way: Way, load: &Load| load.view(way).damage.is_none();
        loads.len()
            - count(loads, |load| {
                choice(load, passes).is_some_and(|way| sound(way, load))
            })
    };
    format!(
        "In short: of {} glyphs pixels show {} damaged when fitted by Snap, {} by Keep and {} unfitted. Of those by Snap `khs_count_shown` names {}, the guard by rows, linked, {}. Who shows the first of Snap, Keep, unfitted and a pixel larger \
        that `khs_count_shown` lets pass has {} that are damaged or shown in no way; {} have no sound way at all.",
        number(loads.len()),
        number(damaged(Way::Snap)),
        number(damaged(Way::Keep)),
        number(damaged(Way::Unfitted)),
        number(named(Guard::Shown)),
        number(named(Guard::Linked)),
        number(left(&|view| !view.is_named(Guard::Shown))),
        number(left(&|view| view.damage.is_none())),
    )
}

/// What the choice is.
const CHOICE: &str = "The first of the four ways, in the order of the table above, that the guard does not name; guards on edges cannot be asked of the unfitted outline, and let it pass. Without a guard it is Snap. The last line chooses the first that is \
    sound, which no guard can better.";

/// How many loads there are of which something holds.
fn count(loads: &[&Load], holds: impl Fn(&Load) -> bool) -> usize {
    loads.iter().filter(|load| holds(load)).count()
}

/// For each way how many are damaged, and how many of the damaged and of the sound ones each guard names.
fn damaged(loads: &[&Load]) -> String {
    let mut table = String::from(
        "| shown | damaged | closed | broken | damaged ones named by rows, linked | by rows | by `khs_count_shown` | sound ones named by rows, linked | by rows | by `khs_count_shown` |\n|---|---|---|---|---|---|---|---|---|---|\n",
    );
    for (way, name) in WAYS {
        let of = |holds: &dyn Fn(&View) -> bool| count(loads, |load| holds(load.view(way)));
        let is = |damage: Damage| of(&|view| view.damage == Some(damage));
        let mut cells = vec![
            number(of(&|view| view.damage.is_some())),
            number(is(Damage::Closed)),
            number(is(Damage::Broken)),
        ];
        for damaged in [true, false] {
            for guard in Guard::ALL {
                let named = of(&|view| view.is_named(guard) && view.damage.is_some() == damaged);
                let can_be_asked = way != Way::Unfitted || guard == Guard::Shown;
                cells.push(if can_be_asked {
                    number(named)
                } else {
                    "-".into()
                });
            }
        }
        table += &format!("| {name} | {} |\n", cells.join(" | "));
    }
    table
}

/// For each guard which ways are chosen, how many of those are damaged, and what is left.
fn chosen(loads: &[&Load]) -> String {
    let mut table = String::from(
        "| guard | Snap | Keep | unfitted | a pixel larger | none | damaged among the chosen | damaged or none |\n|---|---|---|---|---|---|---|---|\n",
    );
    let alone = count(loads, |load| load.view(Way::Snap).damage.is_some());
    let (all, alone) = (number(loads.len()), number(alone));
    table += &format!("| none | {all} | | | | | {alone} | {alone} |\n");
    let by = |guard: Guard| move |view: &View| !view.is_named(guard);
    table += &chosen_by("rows, linked", loads, by(Guard::Linked));
    table += &chosen_by("rows", loads, by(Guard::All));
    table += &chosen_by("`khs_count_shown`", loads, by(Guard::Shown));
    table += &chosen_by("soundness", loads, |view| view.damage.is_none());
    table
}

/// The line of a guard, which lets some ways pass.
fn chosen_by(name: &str, loads: &[&Load], passes: impl Fn(&View) -> bool) -> String {
    let by = |way: Option<Way>| count(loads, |load| choice(load, &passes) == way);
    let ways = Way::ALL.map(|way| number(by(Some(way)))).join(" | ");
    let none = by(None);
    let damaged = count(loads, |load| {
        choice(load, &passes).is_some_and(|way| load.view(way).damage.is_some())
    });
    format!(
        "| {name} | {ways} | {} | {} | {} |\n",
        number(none),
        number(damaged),
        number(damaged + none)
    )
}

/// The characters that are damaged by Snap most often without that a guard on edges names them.
fn missed(loads: &[&Load]) -> String {
    let mut by_name: BTreeMap<&str, usize> = BTreeMap::new();
    for load in loads {
        let view = load.view(Way::Snap);
        if view.damage.is_some() && !view.is_named(Guard::Linked) {
            *by_name.entry(&load.name).or_default() += 1;
        }
    }
    let sum: usize = by_name.values().sum();
    let mut most: Vec<_> = by_name.into_iter().collect();
    most.sort_by_key(|(name, count)| (usize::MAX - count, *name));
    let listed: Vec<String> = most
        .iter()
        .take(LISTED)
        .map(|(name, count)| format!("{name} {count}"))
        .collect();
    format!(
        "Of the {} that Snap damages and that the guard by rows, linked, does not name, these characters are the first: {}. The guard knows edges alone, and slanted strokes and curves have none.",
        number(sum),
        listed.join(", ")
    )
}

/// Three loads, drawn in all ways: one that Snap damages and that the guard on edges names, one that it does not name and another way mends, and one that no way shows.
fn pictures(loads: &[&Load]) -> String {
    let damaged = |load: &Load, way| load.view(way).damage.is_some();
    let mended = |load: &Load| Way::ALL.iter().any(|way| !damaged(load, *way));
    let first = |holds: &dyn Fn(&Load) -> bool| {
        let digit = loads.iter().find(|load| load.is_digit() && holds(load));
        digit.or_else(|| loads.iter().find(|load| holds(load)))
    };
    let named = |load: &Load| load.view(Way::Snap).is_named(Guard::Linked);
    let shown = [
        (
            "The guard on edges names what Snap damages, and another way shows it:",
            first(&|load| damaged(load, Way::Snap) && named(load) && mended(load)),
        ),
        (
            "It does not name this; `khs_count_shown` does, and another way shows it:",
            first(&|load| {
                damaged(load, Way::Snap)
                    && !named(load)
                    && load.view(Way::Snap).is_named(Guard::Shown)
                    && mended(load)
            }),
        ),
        ("No way shows this:", first(&|load| !mended(load))),
    ];
    shown
        .into_iter()
        .filter_map(|(text, load)| Some(format!("{text}\n\n{}", picture(load?))))
        .collect::<Vec<String>>()
        .join("\n")
}

/// A load in all ways, side by side.
fn picture(load: &Load) -> String {
    let columns: Vec<Vec<String>> = WAYS
        .iter()
        .map(|(way, name)| column(load.view(*way), name))
        .collect();
    let height = columns.iter().map(Vec::len).max().unwrap_or(0);
    let mut text = format!(
        "{} of {} at {}, whose outline has {}\n\n```\n",
        load.name, load.font, load.size, load.outline
    );
    for row in 0..height {
        let cells = columns.iter().map(|column| {
            let width = column
                .iter()
                .map(|cell| cell.chars().count())
                .max()
                .unwrap_or(0);
            let cell = column.get(row).map_or("", String::as_str);
            format!("{cell:width$}")
        });
        let line = cells.collect::<Vec<String>>().join("   ");
        text += &format!("{}\n", line.trim_end());
    }
    text + "```\n"
}

/// A way's name, what pixels show of it, and the pixels from the top.
fn column(view: &View, name: &str) -> Vec<String> {
    let told = match view.damage {
        None => "sound",
        Some(Damage::Closed) => "closed",
        Some(Damage::Broken) => "broken",
    };
    let mut lines = vec![name.to_string(), told.into(), String::new()];
    lines.extend(rows(&view.pixels));
    lines
}

/// The rows of pixels from the top, without the border.
fn rows(pixels: &Bitmap) -> impl Iterator<Item = String> + '_ {
    let area = pixels.area();
    let row = move |y| -> String {
        (area.left + 1..area.right)
            .map(|x| if pixels.is_black(x, y) { '█' } else { '·' })
            .collect()
    };
    (area.bottom + 1..area.top).rev().map(row)
}

#[cfg(test)]
mod tests {
    use super::number;

    #[test]
    fn numbers_have_commas_between_thousands() {
        let numbers = [0, 999, 1_000, 27_192, 1_234_567].map(number);
        assert_eq!(numbers, ["0", "999", "1,000", "27,192", "1,234,567"]);
    }
}
