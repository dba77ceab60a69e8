//! Refusals of the model: the table of the documents, or the same with a slip in it.

use super::leg::taken_but_for_walls;
use super::{Model, Slip};
use crate::refusals::{
    self, FIELDLESS, Given, Judged, NO_RANGE, NO_WINDOW_THERE, NOT_2_TO_8, ON_WALL, Table, first, is_no_range,
    named_cells, size, step_list_fits,
};

/// What comes of a call.
pub(super) enum Verdict {
    Refused(u8),
    Accepted,
    /// Taken by a slip that the table does not take: nothing to work on.
    Mistaken,
}

impl Model {
    pub(super) fn judge(&self, given: &Given) -> Verdict {
        match self.number_of(given) {
            0 if refusals::number(given) == 0 => Verdict::Accepted,
            0 => Verdict::Mistaken,
            number => Verdict::Refused(number),
        }
    }

    pub(super) fn number_of(&self, given: &Given) -> u8 {
        let mut table = Table::documents();
        self.slip_in_step(&mut table);
        self.slip_on_walls(&mut table, given);
        self.slip_without_field(&mut table);
        self.slip_on_floors(&mut table);
        self.slip_in_range(&mut table);
        self.slip_in_list(&mut table);
        self.slip_at_place(&mut table);
        self.slip_elsewhere(&mut table);
        let due = self.early(&table, given).or_else(|| self.late(given));
        match due.unwrap_or_else(|| table.number(given)) {
            0 if given.windows => self.after_all(given),
            ON_WALL if self.slips(Slip::OnWallCounting) && !counting_wall(given) => 0,
            number => number,
        }
    }

    fn slip_in_step(&self, table: &mut Table) {
        let rows = &mut table.each_step;
        match self.slip {
            Slip::SectorSixtyFour => rows[0].holds = |s| s[0] > 64 || s[2] > 1 || s[6] != 0 || s[7] != 0,
            Slip::LastBytesIgnored => rows[0].holds = |s| s[0] > 63 || s[2] > 1 || s[6] != 0,
            Slip::GoalHundred => rows[1].holds = |s| s[2] == 0 && s[1] > 100,
            Slip::GoalJudgedWithWindow => rows[1].holds = |s| s[1] > 99,
            Slip::WindowJudgedWithGoal => rows[2].holds = |s| s[3] > 99 || s[4] > 99 || s[5] > 3,
            Slip::OrderBeforeEdge => rows.swap(3, 4),
            _ => {}
        }
    }

    /// Slips in the row of 16, which is the last of each step.
    fn slip_on_walls(&self, table: &mut Table, given: &Given) {
        let rows = &mut table.each_step;
        match self.slip {
            Slip::OnWallFirstCell => rows[5].holds = |s| wall_named(s, if s[2] == 0 { 1 } else { 3 }),
            Slip::OnWallEndCells => rows[5].holds = |s| if s[2] == 0 { wall_named(s, 1) } else { wall_at_end(s) },
            Slip::OnWallGoalAlone => rows[5].holds = |s| s[2] == 0 && wall_named(s, 1),
            Slip::OnWallWindowAlone => rows[5].holds = |s| s[2] == 1 && s.on_wall(),
            Slip::OnWallGoalByte => rows[5].holds = |s| s.on_wall() || wall_named(s, 1),
            Slip::OnWallWindowBytes => rows[5].holds = |s| s.on_wall() || wall_at_end(s),
            Slip::OnWallByIndex => {
                rows[5].holds = |s| s.on_wall() || (s[2] == 1 && (s[3]..=s[4]).any(|cell| s.is_wall(usize::from(cell))))
            }
            Slip::OnWallAt254 => {
                rows[5].holds = |s| named_cells(s.step).iter().any(|cell| s.costs.get(*cell) >= Some(&254))
            }
            Slip::OnWallBeforeOrder => {
                rows.swap(4, 5);
                rows[4].holds = |s| s.on_wall() || (s[2] == 1 && wall_at_end(s));
            }
            Slip::OnWallInit if is_init(given) => rows[5].holds = |_| false,
            Slip::OnWallSector if given.sheet.is_some() && !given.leg => rows[5].holds = |_| false,
            Slip::OnWallLeg if given.leg => rows[5].holds = |_| false,
            _ => {}
        }
    }

    /// Slips in the row of 17.
    fn slip_without_field(&self, table: &mut Table) {
        let row = &mut table.sector_call[0];
        match self.slip {
            Slip::FieldlessTaken => row.holds = |_| false,
            Slip::FieldlessOneCell => row.holds = |g| fieldless_window(g) && g.steps.is_some_and(|s| s[3] != s[4]),
            Slip::FieldlessGoal => row.holds = |g| g.is_sector_call() && g.is_fieldless(),
            Slip::FieldlessFlowNew => row.holds = |g| g.has_window() && g.is_fieldless(),
            Slip::FieldlessInit => row.holds = |g| fieldless_window(g) || (is_init(g) && g.has_window()),
            Slip::FieldlessLeg => row.holds = |g| fieldless_window(g) || (g.leg && g.has_window()),
            Slip::FieldlessByLength => {
                row.holds = |g| fieldless_window(g) && g.previous.is_some_and(|p| p.numbers.is_empty())
            }
            Slip::RangeFieldless => row.holds = |g| fieldless_window(g) || g.is_bounds_call(),
            _ => {}
        }
    }

    /// Slips in the rows of 1 and 16 that forget one of two floors.
    fn slip_on_floors(&self, table: &mut Table) {
        let (length, wall) = (&mut table.lent[0], &mut table.each_step[5]);
        match self.slip {
            Slip::RangeLowLength => length.holds = |g| g.high.or(g.costs).is_some_and(|costs| costs.len() != size(g)),
            Slip::RangeHighLength => length.holds = |g| g.costs.is_some_and(|costs| costs.len() != size(g)),
            Slip::RangeWallLowAlone => wall.holds = |s| Judged { high: &[], ..*s }.on_wall(),
            Slip::RangeWallHighAlone => {
                wall.holds = |s| if s.high.is_empty() { s.on_wall() } else { Judged { costs: &[], ..*s }.on_wall() }
            }
            _ => {}
        }
    }

    /// Slips in the row of 18.
    fn slip_in_range(&self, table: &mut Table) {
        let row = &mut table.bounds_call[0];
        match self.slip {
            Slip::RangeGoalTaken => row.holds = |g| g.from_to().any(is_no_range),
            Slip::RangeAboveTaken => {
                row.holds = |g| no_window(g) || g.from_to().any(|(low, high)| (low == 255) != (high == 255))
            }
            Slip::RangeLastCell => row.holds = |g| no_window(g) || g.from_to().take(99).any(is_no_range),
            Slip::RangeFirstCell => row.holds = |g| no_window(g) || g.from_to().take(1).any(is_no_range),
            Slip::RangeAtWindow => row.holds = |g| no_window(g) || no_range_but_at_window(g),
            Slip::RangeWallInHigh => row.holds = |g| no_window(g) || g.from_to().any(|(low, high)| low > high),
            Slip::RangeEqual => row.holds = |g| is_due(g) || g.is_bounds_call() && g.costs == g.high,
            Slip::RangeWallInBoth => row.holds = |g| is_due(g) || g.from_to().any(|costs| costs == (255, 255)),
            _ => {}
        }
    }

    /// Slips in the rows of a list of windows: its costs, its bytes, and how many steps it has.
    fn slip_in_list(&self, table: &mut Table) {
        let [costs, _, length, count] = &mut table.lent;
        match self.slip {
            Slip::ListEmptyThree => {
                length.holds = |g| fits_not(g) || (g.windows && g.steps.is_some_and(|steps| steps.is_empty()))
            }
            Slip::ListLongThree => {
                length.holds = |g| fits_not(g) || (g.windows && g.steps.is_some_and(|steps| steps.len() > 128))
            }
            Slip::ListOneTaken => count.holds = |g| g.windows && !(1..=8).contains(&g.step_count()),
            Slip::ListNineTaken => count.holds = |g| g.windows && !(2..=9).contains(&g.step_count()),
            Slip::ListWholeFloor => {
                costs.holds = |g| {
                    let due = if g.windows { 6400 } else { size(g) };
                    [g.costs, g.high].iter().flatten().any(|costs| costs.len() != due)
                }
            }
            Slip::ListCountBeforeCosts => table.lent.rotate_right(1),
            Slip::ListCountBeforeLength => table.lent.swap(2, 3),
            Slip::ListCountAfterSteps => count.holds = |_| false,
            _ => {}
        }
    }

    /// Slips in the row of 20, which is the last of each step of a list of windows, and in that of 16 there.
    fn slip_at_place(&self, table: &mut Table) {
        let rows = &mut table.each_step;
        match self.slip {
            Slip::ListPlaceBeforeWalls => rows.swap(5, 6),
            Slip::ListPlaceBeforeSteps => rows.rotate_right(1),
            Slip::ListPlaceAfterSteps => rows[6].holds = |_| false,
            Slip::ListGoalTaken => rows[6].holds = |s| s.no_window_there() && s[2] == 1,
            Slip::ListFirstGoalTaken => rows[6].holds = |s| s.no_window_there() && !is_listed(s, 0),
            Slip::ListFirstStepAlone => rows[6].holds = |s| s.no_window_there() && is_listed(s, 0),
            Slip::ListSectorTaken => rows[6].holds = |s| s.no_window_there() && s[2] != 1,
            Slip::ListSectorOfSecond => {
                rows[6].holds = |s| s.no_window_there() && (s[2] != 1 || is_listed(s, 1));
            }
            Slip::ListSectorZero => rows[6].holds = |s| s.no_window_there() || (s.first.is_some() && s[0] != 0),
            Slip::ListWallOfFirst => rows[5].holds = |s| s.on_wall() && (s.first.is_none() || is_listed(s, 0)),
            _ => {}
        }
    }

    /// A number that a slip gives to a list of windows behind all others.
    fn after_all(&self, given: &Given) -> u8 {
        match self.slip {
            Slip::ListCountAfterSteps if !(2..=8).contains(&given.step_count()) => NOT_2_TO_8,
            Slip::ListPlaceAfterSteps if refusals::each(given).any(|step| step.no_window_there()) => NO_WINDOW_THERE,
            Slip::ListNamedTwice => 9,
            Slip::ListFieldless => FIELDLESS,
            Slip::ListOverlapRefused if overlaps(given) => NO_WINDOW_THERE,
            _ => 0,
        }
    }

    fn slip_elsewhere(&self, table: &mut Table) {
        let others = &mut table.others;
        match self.slip {
            Slip::SeventeenSteps => {
                table.lent[2].holds = |g| {
                    let seventeen = g.leg && g.steps.is_some_and(|steps| steps.len() == 136);
                    fits_not(g) && !seventeen
                }
            }
            Slip::TenBeforeNine => table.whole_leg.swap(0, 1),
            Slip::SectorsWrap => {
                table.whole_leg[1].holds = |steps| {
                    let steps: Vec<&[u8]> = steps.chunks(8).collect();
                    let across = |s: &[u8]| i32::from(s[0]) + [-8, 1, 8, -1][usize::from(s[5])];
                    !steps.windows(2).all(|pair| across(pair[1]) == i32::from(pair[0][0]))
                }
            }
            Slip::HundredOneCorners => {
                others[0].holds =
                    |g| g.by_hand.is_some_and(|f| f.count > 101 || f.los_corners.iter().take(f.count).any(|x| *x > 99))
            }
            Slip::CornerHundred => {
                others[0].holds = |g| g.by_hand.is_some_and(|f| f.count > 100 || f.corners().iter().any(|x| *x > 100))
            }
            Slip::BeyondCountJudged => {
                others[0].holds = |g| g.by_hand.is_some_and(|f| f.count > 100 || f.los_corners.iter().any(|x| *x > 99))
            }
            Slip::PreviousOnlyWithWindow => {
                others[1].holds = |g| {
                    let window = g.steps.is_some_and(|s| s[2] == 1);
                    window && g.previous.is_some_and(|p| p.lent && p.numbers.len() != 100)
                }
            }
            Slip::PreviousUnlentJudged => others[1].holds = |g| g.previous.is_some_and(|p| p.numbers.len() != 100),
            Slip::ColumnTen => others[2].holds = |g| g.coordinates.iter().any(|x| *x > 10),
            _ => {}
        }
    }

    /// A number that a slip finds before its turn.
    fn early<'a>(&self, table: &Table<'a>, given: &Given<'a>) -> Option<u8> {
        let before = match self.slip {
            Slip::FieldlessBeforeOrder => 8,
            Slip::FieldlessBeforeWalls => ON_WALL,
            _ => 0,
        };
        if before != 0 && fieldless_window(given) && table.number(given) == before {
            return Some(FIELDLESS);
        }
        let before = match self.slip {
            Slip::RangeBeforeOrder => 8,
            Slip::RangeBeforeWalls => ON_WALL,
            _ => 0,
        };
        if before != 0 && is_due(given) && table.number(given) == before {
            return Some(NO_RANGE);
        }
        let steps = given.steps.filter(|_| given.leg && first(&table.lent, given).is_none())?;
        match self.slip {
            Slip::NineBeforeSteps => first(&table.whole_leg[..1], steps),
            Slip::RowsBeforeSteps => {
                let rows = table.each_step.iter();
                rows.filter(|row| refusals::each(given).any(|step| (row.holds)(&step))).map(|row| row.number).next()
            }
            _ => None,
        }
    }

    /// A number that a slip puts before 16, or 16 found on other costs.
    fn late(&self, given: &Given) -> Option<u8> {
        let before = match self.slip {
            Slip::OnWallAfterSteps => 4..=8,
            Slip::OnWallAfterNine => 9..=9,
            Slip::OnWallAfterTen => 10..=10,
            Slip::OnWallAfterTwelve => 12..=12,
            Slip::OnWallOtherSector if given.leg => return Some(on_the_sector_before(given)),
            _ => return None,
        };
        let mut others = Table::documents();
        others.each_step[5].holds = |_| false;
        Some(others.number(given)).filter(|number| before.contains(number))
    }
}

/// Whether the call is the sector call, of a window without a previous field.
fn fieldless_window(g: &Given) -> bool {
    g.is_sector_call() && g.has_window() && g.is_fieldless()
}

fn is_init(g: &Given) -> bool {
    g.costs.is_some() && g.steps.is_some() && g.sheet.is_none() && !g.is_bounds_call() && !g.windows && !g.leg
}

/// Whether the condition of 3 holds.
fn fits_not(g: &Given) -> bool {
    g.steps.is_some_and(|steps| !step_list_fits(g, steps.len()))
}

/// Whether the step is the k-th of a list of windows, from 0.
fn is_listed(s: &Judged, k: usize) -> bool {
    s.first.is_some_and(|first| first.as_ptr().wrapping_add(8 * k) == s.step.as_ptr())
}

/// Whether two of the steps name a cell in common.
fn overlaps(g: &Given) -> bool {
    let mut named: Vec<usize> = refusals::each(g).flat_map(|step| named_cells(step.step)).collect();
    let cells = named.len();
    named.sort();
    named.dedup();
    named.len() < cells
}

fn no_window(g: &Given) -> bool {
    g.is_bounds_call() && !g.has_window()
}

/// Whether the condition of 18 holds.
fn is_due(g: &Given) -> bool {
    no_window(g) || g.from_to().any(is_no_range)
}

/// Whether a cell outside the window has costs that are no from-to.
fn no_range_but_at_window(g: &Given) -> bool {
    let named = g.steps.map_or(Vec::new(), named_cells);
    g.from_to().enumerate().any(|(cell, costs)| is_no_range(costs) && !named.contains(&cell))
}

/// Whether the cell that a byte of the step names is a wall, read or not.
fn wall_named(s: &Judged, byte: usize) -> bool {
    s.is_wall(usize::from(s[byte]))
}

fn wall_at_end(s: &Judged) -> bool {
    wall_named(s, 3) || wall_named(s, 4)
}

/// The number of a leg where each step is held to the costs of the sector numbered before its own.
fn on_the_sector_before(given: &Given) -> u8 {
    let mut floor = given.costs.unwrap_or(&[]).to_vec();
    let by = 100.min(floor.len());
    floor.rotate_right(by);
    Table::documents().number(&Given { costs: Some(&floor), ..*given })
}

/// Whether a leg that is refused with 16 has its wall under the goal, or under a window cell that counts.
fn counting_wall(given: &Given) -> bool {
    let (Some(floor), Some(steps)) = (given.costs.filter(|_| given.leg), given.steps) else { return true };
    let Some(at) = refusals::each(given).position(|step| step.on_wall()) else { return true };
    let steps = &steps[..8 * (at + 1)];
    if at == 0 || !taken_but_for_walls(floor, steps) {
        return true;
    }
    let plan = Model::PLAIN.plan(floor, steps);
    let wall = |cell: &usize| floor[100 * usize::from(steps[8 * at]) + cell] == 255;
    plan.steps.get(at).is_some_and(|step| step.counting.iter().any(wall))
}
