//! Where the grids of the modes are drawn.

use super::slice::Slice;
use super::style::{LEFT, RIGHT};
use super::svg::Area;

/// Around a grid: the title and the names of its limits above, edges at the left and below, names at the right.
const ABOVE: i32 = 50;
const BELOW: i32 = 52;
const BEFORE: i32 = 50;
const BEHIND: i32 = 76;
/// Cells are no narrower and no wider than this.
const NARROWEST: i32 = 54;
const WIDEST: i32 = 100;
/// Most grids beside one another.
const MOST_BESIDE: usize = 3;

pub struct Panels {
    columns: i32,
    rows: i32,
    beside: i32,
    modes: i32,
    cell_width: i32,
    cell_height: i32,
    top: i32,
}

impl Panels {
    /// The grids of all modes from `top` on, as many beside one another as fit.
    pub fn new(slice: &Slice, modes: u8, top: i32) -> Panels {
        let columns = slice.columns() as i32;
        let most = MOST_BESIDE.min(modes.into()) as i32;
        let width = |beside: i32| ((RIGHT - LEFT) / beside - BEFORE - BEHIND) / columns;
        let fitting = (1..=most).rev().find(|&beside| width(beside) >= NARROWEST);
        let beside = fitting.unwrap_or(1);
        let cell_width = width(beside).min(WIDEST);
        Panels {
            columns,
            rows: slice.rows() as i32,
            beside,
            modes: modes.into(),
            cell_width,
            cell_height: (cell_width * 3 / 4).clamp(46, 64),
            top,
        }
    }

    /// What a mode's grid takes with all that stands around it.
    fn slot(&self, mode: usize) -> Area {
        let (column, row) = (mode as i32 % self.beside, mode as i32 / self.beside);
        let width = (RIGHT - LEFT) / self.beside;
        let height = ABOVE + self.rows * self.cell_height + BELOW;
        Area {
            x: LEFT + column * width,
            y: self.top + row * height,
            width,
            height,
        }
    }

    /// A mode's grid.
    pub fn grid(&self, mode: usize) -> Area {
        let slot = self.slot(mode);
        Area {
            x: slot.x + BEFORE,
            y: slot.y + ABOVE,
            width: self.columns * self.cell_width,
            height: self.rows * self.cell_height,
        }
    }

    /// A cell; rows are counted from the bottom.
    pub fn cell(&self, mode: usize, (column, row): (usize, usize)) -> Area {
        let grid = self.grid(mode);
        Area {
            x: grid.x + column as i32 * self.cell_width,
            y: grid.bottom() - (row as i32 + 1) * self.cell_height,
            width: self.cell_width,
            height: self.cell_height,
        }
    }

    /// An upright line behind a mode's grid where nothing stands.
    pub fn gutter(&self, mode: usize) -> i32 {
        self.grid(mode).right() + BEHIND - 5
    }

    /// A level line below a mode's grid where nothing stands.
    pub fn alley(&self, mode: usize) -> i32 {
        self.slot(mode).bottom() - 7
    }

    /// Do two modes' grids stand in the same row?
    pub fn same_row(&self, one: usize, other: usize) -> bool {
        self.slot(one).y == self.slot(other).y
    }

    /// How many grids stand beside one another.
    pub fn beside(&self) -> usize {
        self.beside as usize
    }

    pub fn bottom(&self) -> i32 {
        self.slot(self.modes as usize - 1).bottom()
    }
}
