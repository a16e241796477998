//! Which edges of a table hold labels.

use super::fault::{excerpt, Fault};
use super::number::number;
use super::table::Table;
use crate::wording::listed;

/// The edges that hold labels: first line, first column.
#[derive(Clone, Copy, Debug, PartialEq, Eq)]
pub enum Axes {
    Both,
    Top,
    Left,
    None,
}

impl Axes {
    pub const ALL: [Axes; 4] = [Axes::Both, Axes::Top, Axes::Left, Axes::None];

    pub fn name(self) -> &'static str {
        match self {
            Axes::Both => "both",
            Axes::Top => "top",
            Axes::Left => "left",
            Axes::None => "none",
        }
    }

    /// How many lines of labels stand above the cells.
    pub(super) fn lines(self) -> usize {
        usize::from(matches!(self, Axes::Both | Axes::Top))
    }

    /// How many labels stand before the cells of a line.
    pub(super) fn fields(self) -> usize {
        usize::from(matches!(self, Axes::Both | Axes::Left))
    }
}

/// The axes of a table, where they are plain; otherwise a fault that names the readings that fit. In some maps a cell
/// may be empty.
pub(super) fn found(table: &Table, may_be_empty: bool) -> Result<Axes, Fault> {
    let edges = Edges {
        table,
        may_be_empty,
    };
    if table.height() == 1 || table.widest() == 1 {
        return edges.found_on_a_line();
    }
    let both_rise = edges.rises(edges.top()) && edges.rises(edges.left());
    if edges.number(CORNER).is_some() {
        return if both_rise {
            let text = "the first line and the first column both rise or fall, as labels do";
            Err(edges.fault(CORNER, text, &[Axes::Both, Axes::None]))
        } else {
            Ok(Axes::None)
        };
    }
    if let Some(place) = edges.top().find(|&place| edges.number(place).is_none()) {
        return Err(edges.no_number(place, &edges.fitting()));
    }
    let fitting = edges.fitting();
    if fitting.contains(&Axes::None) && !both_rise {
        let text = "the corner may be an empty cell, and not both edges rise as labels do";
        return Err(edges.fault(CORNER, text, &fitting));
    }
    Ok(Axes::Both)
}

/// A field by its line and its number on the line.
type Place = (usize, usize);

const CORNER: Place = (0, 0);

/// The first line and the first column of a table.
struct Edges<'a> {
    table: &'a Table,
    may_be_empty: bool,
}

impl Edges<'_> {
    fn top(&self) -> impl Iterator<Item = Place> {
        (1..self.table.widest()).map(|field| (0, field))
    }

    fn left(&self) -> impl Iterator<Item = Place> {
        (1..self.table.height()).map(|line| (line, 0))
    }

    fn number(&self, (line, field): Place) -> Option<f64> {
        number(self.table.field(line, field), self.table.dialect().decimal)
    }

    fn may_be_cell(&self, place: Place) -> bool {
        let is_empty = self.table.field(place.0, place.1).is_empty();
        self.number(place).is_some() || self.may_be_empty && is_empty
    }

    /// Whether all are numbers that rise, or all fall.
    fn rises(&self, edge: impl Iterator<Item = Place>) -> bool {
        let mut before: Option<f64> = None;
        let (mut rising, mut falling) = (true, true);
        for place in edge {
            let Some(number) = self.number(place) else {
                return false;
            };
            rising &= before.is_none_or(|before| before < number);
            falling &= before.is_none_or(|before| before > number);
            before = Some(number);
        }
        rising || falling
    }

    /// The readings by which every field of the edges is a label or may be a cell.
    fn fitting(&self) -> Vec<Axes> {
        let top = self.top().all(|place| self.may_be_cell(place));
        let left = self.left().all(|place| self.may_be_cell(place));
        let fits = |axes: &Axes| match axes {
            Axes::Both => true,
            Axes::Top => left,
            Axes::Left => top,
            Axes::None => top && left && self.may_be_cell(CORNER),
        };
        Axes::ALL.into_iter().filter(fits).collect()
    }

    /// A table of one line or one column has axes only if they are asked for; a corner that is no number hints at it.
    fn found_on_a_line(&self) -> Result<Axes, Fault> {
        let mut others = self.top().chain(self.left()).peekable();
        let labelled = self.number(CORNER).is_none()
            && others.peek().is_some()
            && others.all(|place| self.number(place).is_some());
        match labelled {
            false => Ok(Axes::None),
            true if self.table.height() == 1 => Err(self.no_number(CORNER, &[Axes::Left])),
            true => Err(self.no_number(CORNER, &[Axes::Top])),
        }
    }

    fn no_number(&self, place: Place, fitting: &[Axes]) -> Fault {
        let text = excerpt(self.table.field(place.0, place.1));
        self.fault(place, &format!("{text} is not a number"), fitting)
    }

    /// A fault, and which `--axes` the user may say.
    fn fault(&self, place: Place, text: &str, fitting: &[Axes]) -> Fault {
        let names: Vec<String> = fitting.iter().map(|axes| axes.name().into()).collect();
        let names = listed(&names, "or");
        let text = format!("{text}; --axes {names} says which are labels");
        self.table.fault(place.0, place.1, text)
    }
}

#[cfg(test)]
mod tests {
    use super::super::table;
    use super::*;

    fn axes(text: &str, may_be_empty: bool) -> Result<Axes, String> {
        let table = table(text.as_bytes().to_vec(), None, None).expect("the table is well formed");
        found(&table, may_be_empty).map_err(|fault| fault.to_string())
    }

    fn fault(text: &str) -> String {
        axes(text, false).unwrap_err()
    }

    #[test]
    fn a_corner_that_is_no_number_over_numbers() {
        for text in [
            "load\\rpm,600,650\n5,1,2\n",
            ",600,650\n5,1,2\n",
            "x,7,3\nidle,1,2\n",
        ] {
            assert_eq!(axes(text, false), Ok(Axes::Both), "{text}");
        }
    }

    #[test]
    fn a_corner_that_is_a_number_and_edges_that_do_not_both_rise() {
        for text in [
            "1,3,2,4\n4,5,6,0\n7,8,9,0\n",
            "1,2,3\n4,5,6\n4,8,9\n",
            "1,x,3\n4,5,6\n",
        ] {
            assert_eq!(axes(text, false), Ok(Axes::None), "{text}");
        }
    }

    #[test]
    fn edges_that_both_rise_or_fall_are_asked_for() {
        let expected = "1:1: the first line and the first column both rise or fall, as labels do; \
                        --axes both or none says which are labels";
        for text in [
            "0,600,650\n5,1,2\n10,3,4\n",
            "0,600,650\n10,1,2\n5,3,4\n",
            "1,2\n3,4\n",
            "0,1700000001,1700000002\n10,1,2\n5,3,4\n",
        ] {
            assert_eq!(fault(text), expected, "{text}");
        }
    }

    #[test]
    fn names_on_the_first_line_are_asked_for() {
        assert_eq!(
            fault("speed,torque\n1,2\n3,4\n"),
            "1:2: \"torque\" is not a number; --axes both or top says which are labels"
        );
        assert_eq!(
            fault("x,600,low\nidle,2,3\n"),
            "1:3: \"low\" is not a number; --axes both says which are labels"
        );
    }

    #[test]
    fn one_line_or_one_column() {
        for text in [
            "1,2,3\n",
            "1\n2\n3\n",
            "5\n",
            "x\n",
            "x,y\n",
            "x\ny\n",
            "1,x\n",
        ] {
            assert_eq!(axes(text, false), Ok(Axes::None), "{text}");
        }
        assert_eq!(
            fault("x,1,2\n"),
            "1:1: \"x\" is not a number; --axes left says which are labels"
        );
        assert_eq!(
            fault("x\n1\n2\n"),
            "1:1: \"x\" is not a number; --axes top says which are labels"
        );
    }

    #[test]
    fn an_empty_corner_of_a_map_that_may_have_empty_cells() {
        assert_eq!(axes(",600,650\n5,1,2\n10,3,\n", true), Ok(Axes::Both));
        assert_eq!(axes(",9,7,8\nidle,1,2,3\n", true), Ok(Axes::Both));
        assert_eq!(
            axes(",9,7,8\n5,1,2,3\n", true).unwrap_err(),
            "1:1: the corner may be an empty cell, and not both edges rise as labels do; \
             --axes both, top, left or none says which are labels"
        );
        assert_eq!(
            axes(",,7,8\n5,1,2,3\n", true).unwrap_err(),
            "1:2: \"\" is not a number; --axes both, top, left or none says which are labels"
        );
        assert_eq!(axes("4,,7\n5,1,2\n", true), Ok(Axes::None));
    }
}
