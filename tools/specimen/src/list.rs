//! The list of numbers of a label: for each glyph pieces less holes of its outline as it is drawn, for somebody to look at once and for a gateway to keep, and where pixels have another number.

use crate::{
    findings::Shape,
    specimen::{Cell, Outcome, Row, Specimen},
};

/// What stands in front of the list.
const HEAD: &str =
    "# pieces less holes of the outline, the glyph, and where pixels have another number\n";

/// The numbers of a glyph at a size: of its outline, and where it was fitted of its pixels without and with fitting.
struct Numbers {
    size: i32,
    outline: i32,
    pixels: Option<[i32; 2]>,
}

/// A line for each glyph: its number, its name and what to look at, with tabs between.
pub fn text(specimen: &Specimen) -> String {
    let lines = specimen.rows.iter().map(line);
    HEAD.to_string() + &lines.collect::<String>()
}

/// The line of a glyph. At the largest size an outline shows most of itself.
fn line(row: &Row) -> String {
    let told: Vec<Numbers> = row.cells.iter().filter_map(numbers).collect();
    let Some(number) = told.last().map(|numbers| numbers.outline) else {
        return format!("-\t{}\tno outline\n", row.name);
    };
    let pixels = |of: usize| move |numbers: &Numbers| Some(numbers.pixels?[of]);
    let others = [
        others("outline", number, &told, |numbers| Some(numbers.outline)),
        others("unfitted", number, &told, pixels(0)),
        others("fitted", number, &told, pixels(1)),
    ];
    let others: Vec<String> = others.into_iter().flatten().collect();
    let line = format!("{number}\t{}\t{}", row.name, others.join("; "));
    line.trim_end().to_string() + "\n"
}

/// The sizes at which something has another number, with that, if there are some.
fn others(
    what: &str,
    number: i32,
    told: &[Numbers],
    of: impl Fn(&Numbers) -> Option<i32>,
) -> Option<String> {
    let other = |numbers: &Numbers| {
        let other = of(numbers).filter(|other| *other != number)?;
        Some(format!("{other} at {}", numbers.size))
    };
    let others: Vec<String> = told.iter().filter_map(other).collect();
    (!others.is_empty()).then(|| format!("{what} {}", others.join(", ")))
}

/// The numbers of a glyph at a size, if it has an outline there.
fn numbers(cell: &Cell) -> Option<Numbers> {
    let size = cell.size;
    Some(match &cell.outcome {
        Outcome::Fitted(fitted) => {
            let judged = &fitted.1;
            Numbers {
                size,
                outline: judged.outline.euler(),
                pixels: Some([judged.unfitted, judged.fitted].map(|count| count.euler())),
            }
        }
        Outcome::Refused(_, outline) => Numbers {
            size,
            outline: Shape::of_outline(outline.as_ref()?).count().euler(),
            pixels: None,
        },
    })
}
