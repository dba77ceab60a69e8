//! Lines and their ends (01, "Line" and "Integration: init"; 02, Job 11).

use super::{Model, Slip};

/// A cell as (column, row).
pub type Place = (i32, i32);

impl Model {
    /// The cells from source to target, both among them.
    pub(super) fn line_cells(&self, source: Place, target: Place) -> Vec<Place> {
        let (columns, rows) = ((target.0 - source.0).abs(), (target.1 - source.1).abs());
        let steep = rows >= columns;
        // Major coordinate first.
        let turned = |(column, row): Place| if steep { (row, column) } else { (column, row) };
        let (from, to) = (turned(source), turned(target));
        let back = to.0 < from.0 && !self.slips(Slip::WalkedFromCorner);
        let mut cells = if back { self.walked(to, from) } else { self.walked(from, to) };
        if back {
            cells.reverse();
        }
        cells.into_iter().map(turned).collect()
    }

    /// A walk by itself, of any pair: no cells toward a lower major coordinate.
    pub(super) fn walk_cells(&self, steep: bool, source: Place, target: Place) -> Vec<Place> {
        let turned = |(column, row): Place| if steep { (row, column) } else { (column, row) };
        let (from, to) = (turned(source), turned(target));
        let wide = (to.1 - from.1).abs() > to.0 - from.0;
        if (to.0 < from.0 && !self.slips(Slip::LowerWalked)) || (wide && self.slips(Slip::WideWalkEmpty)) {
            return Vec::new();
        }
        self.walked(from, to).into_iter().map(turned).collect()
    }

    /// From a first cell, step by step of the major coordinate: at step k the minor coordinate is the
    /// nearest whole number, an exact half nearer the first cell, and at most one aside at each step.
    fn walked(&self, first: Place, last: Place) -> Vec<Place> {
        let steps = (last.0 - first.0).abs();
        let span = (last.1 - first.1).abs();
        let (toward, aside) = ((last.0 - first.0).signum(), (last.1 - first.1).signum());
        let half_up = if self.slips(Slip::HalfOtherWay) { steps } else { steps - 1 };
        let offset = |k: i32| if steps == 0 { 0 } else { ((2 * k * span + half_up) / (2 * steps)).min(k) };
        (0..=steps).map(|k| (first.0 + toward * k, first.1 + aside * offset(k))).collect()
    }

    /// The end of a corner's line: straight rays as 01 has them, others by 02, Job 11.
    pub(super) fn end_of_line(&self, corner: Place, goal: Place) -> Place {
        if corner.0 == goal.0 {
            let row_nine = corner.1 > goal.1 || (corner == goal && self.slips(Slip::CornerAtGoalRowNine));
            return (corner.0, if row_nine { 9 } else { 0 });
        }
        if corner.1 == goal.1 {
            return (if corner.0 > goal.0 { 9 } else { 0 }, corner.1);
        }
        let steep = (corner.1 - goal.1).abs() > (corner.0 - goal.0).abs();
        let turned = |(column, row): Place| (row, column);
        match self.slip {
            Slip::FloatRays | Slip::PublishedSight => float_end(corner, goal),
            Slip::FloatRaysLeftward if corner.0 < goal.0 => float_end(corner, goal),
            Slip::SteepRaysByRows if steep => turned(self.ray_end(turned(corner), turned(goal))),
            _ => self.ray_end(corner, goal),
        }
    }

    /// "Column by column from the corner's own, away from the goal", "the first column whose row leaves 0 to 9 ends there on
    /// that edge row; otherwise the edge column ends it".
    fn ray_end(&self, corner: Place, goal: Place) -> Place {
        let away = if self.slips(Slip::RayTowardGoal) { goal.0 - corner.0 } else { corner.0 - goal.0 }.signum();
        let edge = if away > 0 { 9 } else { 0 };
        let mut before = corner;
        for column in (0..10).map(|k| corner.0 + away * k) {
            let row = self.ray_row(corner, goal, column);
            if self.leaves(row, away) {
                return if self.slips(Slip::RayEndsBefore) { before } else { (column, row.clamp(0, 9)) };
            }
            if column == edge {
                return (column, row.clamp(0, 9));
            }
            before = (column, row);
        }
        unreachable!("an edge column is at most nine columns away")
    }

    /// Whether a row ends a ray before the edge column.
    fn leaves(&self, row: i32, away: i32) -> bool {
        match self.slip {
            Slip::RayEdgeColumnFirst => false,
            Slip::RayLeavesLate => !(-1..=10).contains(&row),
            Slip::RayRowZeroLeftward if away < 0 => !(1..10).contains(&row),
            _ => !(0..10).contains(&row),
        }
    }

    /// "The nearest whole row to the exact ray from goal through corner; an exact half goes to the row nearer the goal's."
    /// Every row is tried. Its distance from the ray is taken as many times as goal and corner are columns apart, which makes
    /// it whole.
    fn ray_row(&self, corner: Place, goal: Place, column: i32) -> i32 {
        let (rise, run) = (corner.1 - goal.1, corner.0 - goal.0);
        let distance = |row: i32| ((row - goal.1) * run - rise * (column - goal.0)).abs();
        let rows = -90..100;
        let nearest = rows.min_by_key(|row| {
            let aside = match self.slip {
                Slip::RayHalfAway => -(row - goal.1).abs(),
                Slip::RayHalfNorth => *row,
                Slip::RayHalfSouth => -row,
                _ => (row - goal.1).abs(),
            };
            (distance(*row), aside)
        });
        let nearest = nearest.expect("rows are tried");
        let (rows, columns) = (rise * run.signum() * (column - goal.0), run.abs());
        match self.slip {
            Slip::RayFloor => goal.1 + rows.div_euclid(columns),
            Slip::RayCut => goal.1 + rows / columns,
            Slip::RayColumnsFromGoal => nearest + rise,
            _ => nearest,
        }
    }
}

/// The end that the published Rust gives, as 01 tells it: gradient, intercept and row in f32, then floor; leftward a row
/// below 0 counts as 0, and the first column at row 0 ends the line.
fn float_end(corner: Place, goal: Place) -> Place {
    let gradient = (corner.1 - goal.1) as f32 / (corner.0 - goal.0) as f32;
    let intercept = -gradient * corner.0 as f32 + corner.1 as f32;
    let row_at = |column: i32| (gradient * column as f32 + intercept).floor() as i32;
    let (away, edge) = if corner.0 > goal.0 { (1, 9) } else { (-1, 0) };
    let columns = (0..10).map(|k| corner.0 + away * k).take_while(|column| *column != edge);
    let ends = |column: &i32| {
        let row = row_at(*column);
        !(0..10).contains(&row) || (away < 0 && row == 0)
    };
    let column = columns.into_iter().find(ends).unwrap_or(edge);
    (column, row_at(column).clamp(0, 9))
}
