//! A recipe planned and run over a bundle, and the TRUE cells of its last result listed: one page, or row by row.

use std::iter::FusedIterator;
use std::ops::{Deref, DerefMut};

use crate::bundle::Bundle;
use crate::call;
use crate::cell::{Kind, CELL};
use crate::extent::Head;
use crate::refusal::Refusal;

/// A work area for every recipe: sixteen results of 4,096 cells.
pub const MOST_WORK: usize = 16 * 4096 * CELL;

/// What a recipe will need and give; see [`Bundle::plan`].
#[derive(Clone, Copy, Debug, PartialEq, Eq, Hash)]
pub struct Plan {
    /// T, the number of cells of all results together.
    pub total: u32,
    /// The last result's type.
    pub kind: Kind,
    /// How many axes the last result has.
    pub axes: u32,
    /// How many cells the last result has.
    pub cells: u32,
}

impl Plan {
    /// The bytes of a work area: nine for each cell of all results.
    pub fn work(&self) -> usize {
        self.total as usize * CELL
    }

    /// The bytes of a row of its listing: four of ordinality, and four for each axis.
    pub fn row(&self) -> usize {
        4 + 4 * self.axes as usize
    }

    /// The bytes of a row buffer that holds every listing of it: a row for each cell of the last result.
    pub fn rows(&self) -> usize {
        self.row() * self.cells as usize
    }
}

/// What a page call answers.
#[derive(Clone, Copy, Debug, PartialEq, Eq, Hash)]
pub struct Page {
    /// The rows written.
    pub written: u32,
    /// The ordinality at which to go on: one past the last row's if the row buffer filled, else one past the last cell's.
    pub next: u32,
}

/// A row of a listing: a cell that is TRUE.
#[derive(Clone, Debug, PartialEq, Eq, Hash)]
pub struct Row {
    /// Its ordinality in the last result.
    pub ordinality: u32,
    /// Its position on each axis.
    pub coordinate: Vec<i32>,
}

impl Row {
    /// The row in four bytes of ordinality and four an axis, as a page call writes it. Bytes under a multiple of four are left out.
    ///
    /// # Panics
    ///
    /// With fewer than four bytes.
    pub fn from_bytes(bytes: &[u8]) -> Row {
        let (ordinality, positions) = bytes.split_first_chunk().expect("a row begins with its ordinality");
        let position = |four: &[u8]| i32::from_le_bytes(four.try_into().expect("four bytes"));
        Row { ordinality: u32::from_le_bytes(*ordinality), coordinate: positions.chunks_exact(4).map(position).collect() }
    }
}

impl Bundle<'_> {
    /// Plans a recipe, before anything is lent: what a run of it will need, and what its last result will be. Refused 4 to 9 at a step,
    /// as a run is.
    ///
    /// ```
    /// use rovgrint::{pack, Axis, Bundle, Cell, Head, Kind, Operator, Version};
    ///
    /// let hours = Head { kind: Kind::Int, axes: vec![Axis::new("day", 1, 7)] };
    /// let mut bytes = [0; 95];
    /// pack(Version::One, &[hours], &[9, 9, 8, 8, 6, 0, 0].map(Cell::Int), &mut bytes)?;
    /// let week = Bundle::read(&bytes)?;
    /// let plan = week.plan(&week.recipe().right_scalar(1, Operator::Greater, Cell::Int(8)))?;
    /// assert_eq!((plan.kind, plan.axes, plan.cells), (Kind::Boolean, 1, 7));
    /// assert_eq!((plan.total, plan.work(), plan.row()), (7, 63, 8));
    /// # Ok::<(), rovgrint::Refusal>(())
    /// ```
    pub fn plan(&self, recipe: &(impl AsRef<[u8]> + ?Sized)) -> Result<Plan, Refusal> {
        let said = call::plan(self.bytes, recipe.as_ref())?;
        Ok(Plan { total: said.number(0), kind: Kind::of(said.number(1)), axes: said.number(2), cells: said.number(3) })
    }

    /// The last result's type and axes, before anything is run; a result's maxima are `*`. Refused as [`plan`](Bundle::plan).
    pub fn extent(&self, recipe: &(impl AsRef<[u8]> + ?Sized)) -> Result<Head, Refusal> {
        let mut head = vec![0; self.version().head()];
        call::extent(self.bytes, recipe.as_ref(), &mut head)?;
        Ok(Head::judged(self.version(), &head))
    }

    /// Runs a recipe and answers T, the number of cells of all results together.
    ///
    /// `work` then begins with these cells in step order, nine bytes each; the rest stays. Refused 4 to 9 at a step, or 10: `work` is
    /// untouched. Refused 12 or 13: the first 9T bytes are zeros.
    pub fn run(&self, recipe: &[u8], work: &mut [u8]) -> Result<u32, Refusal> {
        Ok(call::run(self.bytes, recipe, work)?.number(0))
    }

    /// Runs a recipe that ends in BOOLEAN and lists its TRUE cells from ordinality `start` on, until `rows` has no room for another row.
    ///
    /// A page with no row is the end. `rows` after the rows, and after any refusal, stays; `work` is as [`run`](Bundle::run) leaves it.
    /// Refused as a run, with 7 where the last result isn't BOOLEAN, then 11 for no room for one row, or a start of 0 or over cells + 1.
    pub fn page(&self, recipe: &[u8], work: &mut [u8], start: u32, rows: &mut [u8]) -> Result<Page, Refusal> {
        let said = call::page(self.bytes, recipe, work, start, rows)?;
        Ok(Page { written: said.number(0), next: said.number(1) })
    }

    /// The rows of a recipe's listing from ordinality 1 on, fetched page after page into `page`, which has room for one row at least.
    /// Refused as a page; once the first page is there, no later one is refused.
    pub fn rows<'b>(&'b self, recipe: &'b [u8], work: &'b mut [u8], page: &'b mut [u8]) -> Result<Rows<'b>, Refusal> {
        let plan = self.plan(recipe)?;
        self.rows_from(recipe, plan, Buffer::Lent(work), Buffer::Lent(page))
    }

    /// The rows of a recipe's listing from ordinality 1 on, in buffers of their own: nothing has to be lent. Refused as a page, but for 10
    /// and 11.
    pub fn listing<'b>(&'b self, recipe: &'b (impl AsRef<[u8]> + ?Sized)) -> Result<Rows<'b>, Refusal> {
        let plan = self.plan(recipe)?;
        let (work, page) = (vec![0; plan.work()], vec![0; plan.rows()]);
        self.rows_from(recipe.as_ref(), plan, Buffer::Own(work), Buffer::Own(page))
    }

    fn rows_from<'b>(&'b self, recipe: &'b [u8], plan: Plan, mut work: Buffer<'b>, mut page: Buffer<'b>) -> Result<Rows<'b>, Refusal> {
        let Page { written, next } = self.page(recipe, &mut work, 1, &mut page)?;
        Ok(Rows { bundle: self, recipe, work, page, row_len: plan.row(), written: written as usize, given: 0, next })
    }
}

/// A buffer that the caller lends, or one of our own.
#[derive(Debug)]
enum Buffer<'b> {
    Lent(&'b mut [u8]),
    Own(Vec<u8>),
}

impl Deref for Buffer<'_> {
    type Target = [u8];

    fn deref(&self) -> &[u8] {
        match self {
            Buffer::Lent(bytes) => bytes,
            Buffer::Own(bytes) => bytes,
        }
    }
}

impl DerefMut for Buffer<'_> {
    fn deref_mut(&mut self) -> &mut [u8] {
        match self {
            Buffer::Lent(bytes) => bytes,
            Buffer::Own(bytes) => bytes,
        }
    }
}

/// The rows of a listing; see [`Bundle::listing`] and [`Bundle::rows`].
#[derive(Debug)]
pub struct Rows<'b> {
    bundle: &'b Bundle<'b>,
    recipe: &'b [u8],
    work: Buffer<'b>,
    page: Buffer<'b>,
    row_len: usize,
    /// Rows on the page, and how many of them were given.
    written: usize,
    given: usize,
    /// Where the next page begins.
    next: u32,
}

impl Rows<'_> {
    /// Fetches the page that begins where the last one said.
    fn turn(&mut self) {
        let page = self.bundle.page(self.recipe, &mut self.work, self.next, &mut self.page);
        let Page { written, next } = page.expect("what gave one page gives the next");
        (self.written, self.given, self.next) = (written as usize, 0, next);
    }
}

impl Iterator for Rows<'_> {
    type Item = Row;

    fn next(&mut self) -> Option<Row> {
        while self.given == self.written {
            if self.written < self.page.len() / self.row_len {
                return None; // the page had room for another row: it was the last
            }
            self.turn();
        }
        let row = &self.page[self.given * self.row_len..][..self.row_len];
        self.given += 1;
        Some(Row::from_bytes(row))
    }
}

impl FusedIterator for Rows<'_> {}
