//! Cells as sets of colours, and the blocks of a clue.

use core::fmt::Debug;

/// What the published files ask of a cell or a colour: for them a colour is a cell with one member.
pub trait Color: Copy + Debug + Default + Ord {
    /// Whether one colour is left.
    fn is_solved(&self) -> bool;

    /// The colours of the set, ascending.
    fn variants(&self) -> Vec<Self>;

    /// The set without this colour, if any other is left.
    fn without(self, colour: Self) -> Option<Self>;
}

/// What the published files ask of a block.
pub trait Block: Copy + Debug {
    type Color: Color;
}

/// A set of colours: bit 0 is blank, bit c is colour c.
#[derive(Clone, Copy, Debug, Default, PartialEq, Eq, PartialOrd, Ord)]
pub struct Cell(pub u8);

/// One block of a clue.
#[derive(Clone, Copy, Debug, PartialEq, Eq)]
pub struct ColouredBlock {
    pub colour: u8,
    pub length: u8,
}

impl Cell {
    /// The cell that only has this colour, 0 for blank.
    pub fn only(colour: u8) -> Self {
        Self(1 << colour)
    }

    /// Whether the colour, 0 for blank, is in the set.
    pub fn has(self, colour: u8) -> bool {
        self.0 >> colour & 1 == 1
    }
}

impl Color for Cell {
    fn is_solved(&self) -> bool {
        self.0.is_power_of_two()
    }

    fn variants(&self) -> Vec<Self> {
        (0..8)
            .filter(|&colour| self.has(colour))
            .map(Self::only)
            .collect()
    }

    fn without(self, colour: Self) -> Option<Self> {
        let left = self.0 & !colour.0;
        (left != 0).then_some(Self(left))
    }
}

impl Block for ColouredBlock {
    type Color = Cell;
}
