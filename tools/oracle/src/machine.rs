//! Document 01's Type 2 machine, written from its paragraph alone, and document 02's box and window, (a).

/// A coordinate in units of 1/65536. Sums of these never overflow: beyond 2^60 is a fault.
type Units = i64;

pub const FURTHEST: Units = 1 << 60;

/// The least x, the least y, the greatest x and the greatest y.
pub type Bounds = [i64; 4];

/// Bytes on which the machine faults.
#[derive(Debug)]
pub struct Fault;

struct Machine<'a> {
    rest: &'a [u8],
    x: Units,
    y: Units,
    stems: usize,
    /// No operator has run.
    first: bool,
    operands: Vec<Units>,
    /// The points drawn, entry after entry.
    points: Vec<(Units, Units)>,
}

impl Machine<'_> {
    fn byte(&mut self) -> Result<u8, Fault> {
        let (&b, rest) = self.rest.split_first().ok_or(Fault)?;
        self.rest = rest;
        Ok(b)
    }

    /// A number's value, its first byte read. TN#5177, section 3.2.
    fn number(&mut self, b: u8) -> Result<Units, Fault> {
        let b0 = i64::from(b);
        let whole = match b {
            28 => i64::from(i16::from_be_bytes([self.byte()?, self.byte()?])),
            32..=246 => b0 - 139,
            247..=250 => (b0 - 247) * 256 + i64::from(self.byte()?) + 108,
            251..=254 => -(b0 - 251) * 256 - i64::from(self.byte()?) - 108,
            _ => {
                let four = [self.byte()?, self.byte()?, self.byte()?, self.byte()?];
                return Ok(i64::from(i32::from_be_bytes(four)));
            }
        };
        Ok(whole * 65536)
    }

    /// The operands, without a width: `each` of them, or any multiple of it that is not 0 where `many`.
    fn take(&mut self, each: usize, many: bool) -> Result<Vec<Units>, Fault> {
        let mut operands = std::mem::take(&mut self.operands);
        let fits = |n: usize| {
            if many {
                n > 0 && n.is_multiple_of(each)
            } else {
                n == each
            }
        };
        let first = std::mem::replace(&mut self.first, false);
        if !fits(operands.len()) {
            if !first || operands.is_empty() || !fits(operands.len() - 1) {
                return Err(Fault);
            }
            operands.remove(0);
        }
        Ok(operands)
    }

    fn go(&mut self, dx: Units, dy: Units) -> Result<(), Fault> {
        self.x += dx;
        self.y += dy;
        if self.x.abs() > FURTHEST || self.y.abs() > FURTHEST {
            return Err(Fault);
        }
        self.points.push((self.x, self.y));
        Ok(())
    }

    fn go_pairs(&mut self, deltas: &[Units]) -> Result<(), Fault> {
        for pair in deltas.chunks_exact(2) {
            self.go(pair[0], pair[1])?;
        }
        Ok(())
    }

    fn run(&mut self) -> Result<(), Fault> {
        loop {
            let b = self.byte()?;
            match b {
                28 | 32.. => {
                    let v = self.number(b)?;
                    self.operands.push(v);
                    if self.operands.len() > 48 {
                        return Err(Fault);
                    }
                }
                1 | 3 | 18 | 23 => {
                    self.stems += self.take(2, true)?.len() / 2;
                    if self.stems > 96 {
                        return Err(Fault);
                    }
                }
                19 => {
                    self.take(0, false)?;
                    let mut left = self.stems;
                    while left > 0 {
                        let mask = self.byte()?;
                        let used = left.min(8);
                        if used < 8 && mask << used != 0 {
                            return Err(Fault);
                        }
                        left -= used;
                    }
                }
                21 => {
                    let d = self.take(2, false)?;
                    self.go(d[0], d[1])?;
                }
                22 => {
                    let d = self.take(1, false)?;
                    self.go(d[0], 0)?;
                }
                4 => {
                    let d = self.take(1, false)?;
                    self.go(0, d[0])?;
                }
                5 => {
                    let d = self.take(2, true)?;
                    self.go_pairs(&d)?;
                }
                8 => {
                    let d = self.take(6, true)?;
                    self.go_pairs(&d)?;
                }
                12 => {
                    if self.byte()? != 35 {
                        return Err(Fault);
                    }
                    // Six points, then the flex height.
                    let d = self.take(13, false)?;
                    self.go_pairs(&d[..12])?;
                }
                14 => {
                    self.take(0, false)?;
                    return Ok(());
                }
                _ => return Err(Fault),
            }
        }
    }
}

/// The points that a program draws, moves and control points among them.
pub fn points(program: &[u8]) -> Result<Vec<(Units, Units)>, Fault> {
    let mut machine = Machine {
        rest: program,
        x: 0,
        y: 0,
        stems: 0,
        first: true,
        operands: Vec::new(),
        points: Vec::new(),
    };
    machine.run()?;
    Ok(machine.points)
}

/// The box of these points; none where there is none.
pub fn bounds(points: &[(Units, Units)]) -> Option<Bounds> {
    let xs = || points.iter().map(|p| p.0);
    let ys = || points.iter().map(|p| p.1);
    Some([xs().min()?, ys().min()?, xs().max()?, ys().max()?])
}

/// How a box lies to a window: 1 within, 2 crossing, 3 outside.
pub fn verdict(b: &Bounds, w: &Bounds) -> u64 {
    let shared = |axis: usize| b[axis].max(w[axis]) <= b[axis + 2].min(w[axis + 2]);
    if !shared(0) || !shared(1) {
        3
    } else if w[0] <= b[0] && w[1] <= b[1] && b[2] <= w[2] && b[3] <= w[3] {
        1
    } else {
        2
    }
}

/// What is answered of a program and a window: the number, the box, and the verdict's word.
pub fn answer(program: &[u8], window: &Bounds) -> (u64, Bounds, u64) {
    match points(program).ok().and_then(|p| bounds(&p)) {
        None => (21, [0; 4], 0),
        Some(b) => (0, b, verdict(&b, window)),
    }
}
