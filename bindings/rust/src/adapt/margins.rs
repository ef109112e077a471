//! How many columns the prefixes around a place take, for rules (`hr`) that fill the rest.

/// Columns of a rule in a table's cell.
const RULE_IN_CELL: u32 = 3;

/// Columns of the prefix of an item without a number.
pub(super) const BULLET: u8 = 2;

/// The prefixes around a place.
#[derive(Clone, Copy, Debug, Default)]
pub(crate) struct Margins {
    columns: u32,
    /// Columns of the prefix of the children of a list that is directly around.
    of_items: u8,
    is_in_cell: bool,
}

impl Margins {
    /// Returns the margins in a child.
    pub fn inside(self) -> Margins {
        Margins { columns: self.columns.saturating_add(self.of_items.into()), of_items: 0, ..self }
    }

    /// Adds a prefix.
    pub fn add(&mut self, columns: u32) {
        self.columns = self.columns.saturating_add(columns);
    }

    /// Adds the prefix that the items of a list have.
    pub fn add_items(&mut self, columns: u8) {
        self.of_items = columns;
    }

    /// Enters the cell of a table.
    pub fn enter_cell(&mut self) {
        self.is_in_cell = true;
    }

    /// Reports whether the cell of a table is around.
    pub fn is_in_cell(self) -> bool {
        self.is_in_cell
    }

    /// Returns the columns that the prefixes leave, where a line of the document has so many.
    pub fn room(self, columns: u32) -> u32 {
        columns.saturating_sub(self.columns)
    }

    /// Returns the columns of a rule, where a line of the document has so many.
    pub fn rule(self, columns: u32) -> u32 {
        let room = self.room(columns);
        if self.is_in_cell {
            room.min(RULE_IN_CELL)
        } else {
            room
        }
    }
}
