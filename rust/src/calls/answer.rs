//! From the answer of a call to a `Result`.

use super::{accepted, Listing, RowPart, TwoTables, Update, Verdict};
use crate::Refusal;

impl Listing {
    /// The listing of an accepted call.
    ///
    /// ```
    /// use overlap::calls::Listing;
    ///
    /// let two_points = Listing { number: 0, count: 0, length: 2 };
    /// assert_eq!(two_points.accepted().unwrap().length, 2);
    /// assert!(Listing { number: 9, count: 0, length: 0 }.accepted().is_err());
    /// ```
    ///
    /// # Errors
    ///
    /// The refusal, where the number is not 0.
    pub fn accepted(self) -> Result<Self, Refusal> {
        accepted(self.number).map(|()| self)
    }
}

impl Verdict {
    /// The yes (`true`) or no (`false`) of an accepted call.
    ///
    /// ```
    /// use overlap::calls::Verdict;
    ///
    /// assert_eq!(Verdict { number: 0, yes: 1 }.accepted(), Ok(true));
    /// assert_eq!(Verdict { number: 0, yes: 0 }.accepted(), Ok(false));
    /// assert!(Verdict { number: 11, yes: 0 }.accepted().is_err());
    /// ```
    ///
    /// # Errors
    ///
    /// The refusal, where the number is not 0.
    pub fn accepted(self) -> Result<bool, Refusal> {
        accepted(self.number).map(|()| self.yes == 1)
    }
}

impl Update {
    /// The number of rows that an accepted call changed.
    ///
    /// ```
    /// use overlap::calls::Update;
    ///
    /// assert_eq!(Update { number: 0, changed: 4 }.accepted(), Ok(4));
    /// assert!(Update { number: 11, changed: 0 }.accepted().is_err());
    /// ```
    ///
    /// # Errors
    ///
    /// The refusal, where the number is not 0.
    pub fn accepted(self) -> Result<u32, Refusal> {
        accepted(self.number).map(|()| self.changed)
    }
}

impl RowPart {
    /// The part of an accepted call.
    ///
    /// ```
    /// use overlap::calls::RowPart;
    ///
    /// let row_1 = RowPart { number: 0, rival: 0, start: 2, length: 2 };
    /// assert_eq!(row_1.accepted(), Ok(row_1));
    /// assert!(RowPart { number: 8, rival: 0, start: 0, length: 0 }.accepted().is_err());
    /// ```
    ///
    /// # Errors
    ///
    /// The refusal, where the number is not 0.
    pub fn accepted(self) -> Result<Self, Refusal> {
        accepted(self.number).map(|()| self)
    }

    /// The part itself, of the tables that the call was lent.
    ///
    /// ```
    /// use overlap::calls::{RowPart, TwoTables};
    ///
    /// let tables = TwoTables {
    ///     places: 2,
    ///     own_ids: &[0; 4],
    ///     own_distances: &[5, 6, 7, 8],
    ///     rival_ids: &[0; 4],
    ///     rival_distances: &[4, 4, 9, 9],
    /// };
    /// let row_1 = RowPart { number: 0, rival: 0, start: 2, length: 2 };
    /// assert_eq!(row_1.of(tables), Ok(&[7, 8][..]));
    /// ```
    ///
    /// # Errors
    ///
    /// The refusal, where the number is not 0.
    ///
    /// # Panics
    ///
    /// Where the tables are shorter than those that the call was lent.
    pub fn of(self, tables: TwoTables<'_>) -> Result<&[u32], Refusal> {
        let Self { start, length, .. } = self.accepted()?;
        let distances = match self.rival {
            0 => tables.own_distances,
            _ => tables.rival_distances,
        };
        Ok(&distances[start..start + length])
    }
}
