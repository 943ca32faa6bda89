//! Rules, "Tally": the responses of a task's met jobs, as a Rust programmer keeps them, and tuned by hand.
use crate::sums::fold;

const CELLS: u64 = 128;
/// No cell and no sum of responses goes beyond it.
const MOST: u64 = 1_000_000_000_000_000;
/// A response above D, a cell or a sum that would pass the most.
const NO_FIT: u8 = 16;

pub trait Tally {
    fn fresh(d: u32) -> Self;
    fn d(&self) -> u32;
    /// Adds a response, or refuses it and stays.
    fn add(&mut self, response: u64) -> Result<(), u8>;
    /// D, the jobs met, the least and the most each with 1 added, 0 where there is none, and the sum.
    fn numbers(&self) -> [u64; 5];
    fn cells(&self) -> &[u64];
}

/// All that a tally holds, behind a sum.
pub fn with_tally(sum: u64, tally: &impl Tally) -> u64 {
    tally.numbers().iter().chain(tally.cells()).fold(sum, |sum, number| fold(sum, *number))
}

pub struct Plain {
    d: u32,
    cells: [u64; CELLS as usize],
    met: u64,
    span: Option<(u64, u64)>,
    sum: u64,
}

impl Tally for Plain {
    fn fresh(d: u32) -> Plain {
        Plain { d, cells: [0; CELLS as usize], met: 0, span: None, sum: 0 }
    }

    fn d(&self) -> u32 {
        self.d
    }

    fn add(&mut self, response: u64) -> Result<(), u8> {
        if response > u64::from(self.d) || self.sum + response > MOST {
            return Err(NO_FIT);
        }
        let cell = &mut self.cells[(CELLS * response / (u64::from(self.d) + 1)) as usize];
        if *cell == MOST {
            return Err(NO_FIT);
        }
        *cell += 1;
        self.met += 1;
        self.span = self.span.map(|(least, most)| (least.min(response), most.max(response))).or(Some((response, response)));
        self.sum += response;
        Ok(())
    }

    fn numbers(&self) -> [u64; 5] {
        let (least, most) = self.span.map_or((0, 0), |(least, most)| (least + 1, most + 1));
        [self.d.into(), self.met, least, most, self.sum]
    }

    fn cells(&self) -> &[u64] {
        &self.cells
    }
}

/// The bits behind the point of a factor.
const POINT: u32 = 48;

/// The cell by a factor in place of a division, no branch for the first response, and one for all that does not fit.
pub struct Packed {
    d: u64,
    /// 128 / (D + 1), rounded up: 128 r is below 2^27 and D + 1 below 2^20, so that 48 bits are enough for every cell.
    factor: u64,
    met: u64,
    least: u64,
    most: u64,
    sum: u64,
    cells: [u64; CELLS as usize],
}

impl Tally for Packed {
    fn fresh(d: u32) -> Packed {
        let d = u64::from(d);
        Packed { d, factor: CELLS * ((1 << POINT) / (d + 1) + 1), met: 0, least: u64::MAX, most: 0, sum: 0, cells: [0; CELLS as usize] }
    }

    fn d(&self) -> u32 {
        self.d as u32
    }

    #[inline(always)]
    fn add(&mut self, response: u64) -> Result<(), u8> {
        if response > self.d {
            return Err(NO_FIT);
        }
        // below 128 for what is not above D: the remainder takes the place of a test for the row's end
        let cell = &mut self.cells[((response * self.factor) >> POINT) as usize % CELLS as usize];
        let (count, sum) = (*cell + 1, self.sum + response);
        if count.max(sum) > MOST {
            return Err(NO_FIT);
        }
        (*cell, self.sum) = (count, sum);
        self.met += 1;
        self.least = self.least.min(response);
        self.most = self.most.max(response);
        Ok(())
    }

    fn numbers(&self) -> [u64; 5] {
        let (least, most) = if self.met == 0 { (0, 0) } else { (self.least + 1, self.most + 1) };
        [self.d, self.met, least, most, self.sum]
    }

    fn cells(&self) -> &[u64] {
        &self.cells
    }
}
