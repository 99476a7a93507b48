//! The limits of every number of a form: code 20.

use crate::shape::{Cell, Column, Hold, Item, Load, Part, Ship};

/// The widest that the cells of a part may be together.
const WIDEST_TOGETHER: i128 = 40_000;

fn within(value: i128, low: i128, high: i128) -> bool {
    low <= value && value <= high
}

/// Whether EDGE and FLOOD are within their limits; EDGE under `old` too, where it is not used.
pub fn ship(ship: &Ship) -> bool {
    within(ship.edge, 1, 9_000) && within(ship.flood, 1, 9_000)
}

/// Whether D, KM and the ten KN are within their limits; the first KN is 0.
pub fn column(column: &Column) -> bool {
    displacement(column.d)
        && within(column.km, 1, 50_000)
        && column.kn.iter().all(|&kn| within(kn, 0, 50_000))
        && column.kn[0] == 0
}

/// Whether D, KG and FS are within their limits.
pub fn load(load: &Load) -> bool {
    displacement(load.d) && within(load.kg, 1, 50_000) && free_surface(load.fs)
}

/// Whether FS of a load or of a weighed line is within its limits.
pub fn free_surface(fs: i128) -> bool {
    within(fs, 0, 10_000)
}

/// Whether T and H are within their limits.
pub fn item(item: &Item) -> bool {
    within(item.tonnes, 1, 400_000) && within(item.height, 0, 50_000)
}

/// Whether N, SF and every number of every part are within their limits.
pub fn hold(hold: &Hold) -> bool {
    hold_number(hold.n) && within(hold.sf, 5_000, 40_000) && hold.parts.iter().all(part)
}

/// Whether N of a hold or a drop is within its limits.
pub fn hold_number(n: i128) -> bool {
    within(n, 1, 16)
}

fn displacement(d: i128) -> bool {
    within(d, 100, 400_000)
}

fn part(part: &Part) -> bool {
    match part {
        Part::Section { length, cells } => {
            let together: i128 = cells.iter().map(Cell::width).sum();
            part_length(*length) && cells.iter().all(cell) && together <= WIDEST_TOGETHER
        }
        Part::PartlyFilled { length, breadth, void, grain } => {
            part_length(*length) && within(*breadth, 1, 40_000) && within(*void, 1, 30_000) && within(*grain, 1, 30_000)
        }
        Part::Split { length, run, left, right } => {
            part_length(*length) && within(*run, 1, *length) && *left >= 1 && *right >= 1 && left + right <= 40_000
        }
    }
}

fn part_length(length: i128) -> bool {
    within(length, 1, 60_000)
}

fn cell(cell: &Cell) -> bool {
    let own_figures = match *cell {
        Cell::Wing { dist, girder, .. } => within(dist, 0, 20_000) && within(girder, 0, 3_000),
        Cell::Hatch { open, .. } => within(open, 0, 3_000),
        Cell::Void { depth, .. } => within(depth, 0, 5_000),
    };
    own_figures && within(cell.width(), 1, 40_000) && within(cell.lip(), 0, 10_000)
}

#[cfg(test)]
mod tests {
    use crate::line::read;
    use crate::shape::{request, Form, Request};

    /// Whether a line of a good shape is within its limits.
    fn within_limits(line: &str) -> bool {
        let form = match read(line.as_bytes()).and_then(request) {
            Ok(Request::Form(form)) => form,
            Ok(Request::Weight(item)) => return super::item(&item),
            Ok(Request::Weighed(fs)) => return super::free_surface(fs),
            other => panic!("{other:?}: {line:?}"),
        };
        match form {
            Form::Ship(ship) => super::ship(&ship),
            Form::Column(column) => super::column(&column),
            Form::Load(load) => super::load(&load),
            Form::Hold(hold) => super::hold(&hold),
            Form::Drop(n) => super::hold_number(n),
            other => panic!("no form with numbers: {other:?}"),
        }
    }

    /// In `line` the text `@` stands for the field; it may be `low` to `high` and nothing else.
    fn field(line: &str, low: i128, high: i128) {
        let with = |value: i128| line.replace('@', &value.to_string());
        assert!(within_limits(&with(low)), "{}", with(low));
        assert!(within_limits(&with(high)), "{}", with(high));
        assert!(!within_limits(&with(high + 1)), "{}", with(high + 1));
        assert!(!within_limits(&with(999_999_999)), "{}", with(999_999_999));
        if low > 0 {
            assert!(!within_limits(&with(low - 1)), "{}", with(low - 1));
        }
    }

    #[test]
    fn ship_column_load_drop() {
        for rule in ["new", "old"] {
            field(&format!("(ship {rule} @ 1)"), 1, 9_000);
            field(&format!("(ship {rule} 1 @)"), 1, 9_000);
        }
        field("(column @ 1 (0 0 0 0 0 0 0 0 0 0))", 100, 400_000);
        field("(column 100 @ (0 0 0 0 0 0 0 0 0 0))", 1, 50_000);
        field("(column 100 1 (@ 0 0 0 0 0 0 0 0 0))", 0, 0);
        field("(column 100 1 (0 @ 0 0 0 0 0 0 0 0))", 0, 50_000);
        field("(column 100 1 (0 0 0 0 0 0 0 0 0 @))", 0, 50_000);
        field("(load @ 1 0)", 100, 400_000);
        field("(load 100 @ 0)", 1, 50_000);
        field("(load 100 1 @)", 0, 10_000);
        field("(drop @)", 1, 16);
    }

    #[test]
    fn weight_and_weighed() {
        field("(weight @ 0)", 1, 400_000);
        field("(weight 1 @)", 0, 50_000);
        field("(weighed @)", 0, 10_000);
    }

    #[test]
    fn holds_parts_cells() {
        for mode in ["trimmed", "voided"] {
            field(&format!("(hold @ {mode} 12500 (part 1 (void 1 0 0)))"), 1, 16);
            field(&format!("(hold 1 {mode} @ (part 1 (void 1 0 0)))"), 5_000, 40_000);
            field(&format!("(hold 1 {mode} 12500 (part @ (void 1 0 0)))"), 1, 60_000);
        }
        let cell = |text: &str| format!("(hold 1 trimmed 12500 (part 1 (void 1 0 0)) (part 1 {text}))");
        field(&cell("(wing @ 0 0 0)"), 1, 40_000);
        field(&cell("(wing 1 @ 0 0)"), 0, 20_000);
        field(&cell("(wing 1 0 @ 0)"), 0, 3_000);
        field(&cell("(wing 1 0 0 @)"), 0, 10_000);
        field(&cell("(hatch @ 0 0)"), 1, 40_000);
        field(&cell("(hatch 1 @ 0)"), 0, 3_000);
        field(&cell("(hatch 1 0 @)"), 0, 10_000);
        field(&cell("(void @ 0 0)"), 1, 40_000);
        field(&cell("(void 1 @ 0)"), 0, 5_000);
        field(&cell("(void 1 0 @)"), 0, 10_000);
        field("(hold 1 partial 12500 (part 1 1 1 1) (part @ 1 1 1))", 1, 60_000);
        field("(hold 1 partial 12500 (part 1 1 1 1) (part 1 @ 1 1))", 1, 40_000);
        field("(hold 1 partial 12500 (part 1 1 1 1) (part 1 1 @ 1))", 1, 30_000);
        field("(hold 1 partial 12500 (part 1 1 1 1) (part 1 1 1 @))", 1, 30_000);
    }

    #[test]
    fn splits() {
        let split = |text: &str| format!("(hold 1 partial 12500 (part 1 1 1 1) (split {text}))");
        field(&split("@ 1 1 1"), 1, 60_000);
        field(&split("60000 @ 1 1"), 1, 60_000);
        field(&split("1 @ 1 1"), 1, 1);
        field(&split("777 @ 1 1"), 1, 777);
        field(&split("@ 777 1 1"), 777, 60_000);
        for (left, right) in [(1, 39_999), (7, 39_993), (20_000, 20_000), (39_999, 1)] {
            field(&split(&format!("1 1 @ {right}")), 1, left);
            field(&split(&format!("1 1 {left} @")), 1, right);
        }
        for breadths in ["0 40000", "40000 0", "40000 1", "1 40000", "65535 1", "1 65535", "40000 25537", "65537 1"] {
            assert!(!within_limits(&split(&format!("1 1 {breadths}"))), "{breadths}");
        }
        for lengths in ["60001 60001", "65536 65536", "65537 65537", "75536 70536", "999999999 999999999", "9 65537"] {
            assert!(!within_limits(&split(&format!("{lengths} 1 1"))), "{lengths}");
        }
        // N, SF and the other parts count as ever.
        field("(hold @ partial 12500 (split 1 1 1 1))", 1, 16);
        field("(hold 1 partial @ (split 1 1 1 1))", 5_000, 40_000);
        field("(hold 1 partial 12500 (split 1 1 1 1) (part @ 1 1 1))", 1, 60_000);
        assert!(!within_limits("(hold 1 partial 12500 (split 1 1 1 1) (split 1 2 1 1) (split 1 1 1 1))"));
    }

    #[test]
    fn widths_together_at_most_40000() {
        field("(hold 1 trimmed 12500 (part 1 (wing 15000 0 0 0) (hatch 15000 0 0) (void @ 0 0)))", 1, 10_000);
        assert!(within_limits("(hold 1 trimmed 12500 (part 1 (void 40000 0 0)) (part 1 (void 40000 0 0)))"));
    }
}
