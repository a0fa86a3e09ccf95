//! Charstrings that come to hold about 24 operands, which are as many as fit in the strict reading.

use crate::generate::{Glyph, push_int};
use crate::random::Random;

/// How many operands each body leaves.
const LEAVES: [usize; 9] = [1, 2, 3, 5, 10, 22, 23, 24, 25];

/// Those bodies, one that calls the first twice, and one that takes what the eighth leaves.
fn leaving_bodies(r: &mut Random) -> Vec<Vec<u8>> {
    let mut bodies = Vec::new();
    for count in LEAVES {
        let mut body = vec![0x8C; count];
        if r.once_in(2) {
            body.push(11);
        }
        bodies.push(body);
    }
    bodies.push(vec![0x8B, 10, 0x8B, 10, 11]);
    bodies.push(vec![0x92, 10, 9, 0x8D]);
    bodies
}

/// Operands as they are brought, and what is left for pop.
struct Held {
    code: Vec<u8>,
    operands: usize,
    left: usize,
}

impl Held {
    fn number(&mut self, r: &mut Random) {
        let v = r.pick(&[
            0, 1, 1, 2, 3, 5, -7, 100, 107, 108, -108, 1131, 1132, -1131, 30_000,
        ]);
        push_int(r, &mut self.code, v);
        self.operands += 1;
    }

    /// Brings an operand or some, mostly no more than are aimed at, or sends some to the PostScript stack.
    fn more(&mut self, r: &mut Random, aim: usize) {
        match r.below(20) {
            0 => {
                // A quotient: two numbers, and then one.
                self.number(r);
                let by = r.pick(&[1, 2, 3, 7, 65_536]);
                push_int(r, &mut self.code, by);
                self.code.extend([12, 12]);
            }
            1 => {
                let body = r.below(LEAVES.len() as u64) as usize;
                if self.operands + LEAVES[body] > aim && !r.once_in(6) {
                    return self.number(r);
                }
                push_int(r, &mut self.code, body as i32);
                self.code.push(10);
                self.operands += LEAVES[body];
            }
            2 => {
                let body = r.pick(&[9, 10]);
                push_int(r, &mut self.code, body);
                self.code.push(10);
                self.operands += 2;
            }
            3 | 4 => {
                // To an OtherSubr that is not known, or to 3: each is handed back.
                if self.operands + 2 > aim && !r.once_in(6) {
                    return self.number(r);
                }
                let count = r.below(self.operands.min(24) as u64 + 1) as usize;
                push_int(r, &mut self.code, count as i32);
                let called = r.pick(&[3, 3, 4, 12, 13, 61, -1, 1000]);
                push_int(r, &mut self.code, called);
                self.code.extend([12, 16]);
                self.operands -= count;
                self.left += count;
            }
            5..=11 if self.left > 0 => {
                self.code.extend([12, 17]);
                self.operands += 1;
                self.left -= 1;
            }
            _ => self.number(r),
        }
    }

    /// About 256 numbers to the PostScript stack, by turns of about 22, their count and the number.
    fn fill(&mut self, r: &mut Random) {
        let total = r.between(250, 260) as usize;
        let turn = r.pick(&[17, 20, 21, 22, 22, 22, 23]);
        while self.left < total {
            let some = turn.min(total - self.left);
            for _ in 0..some {
                self.number(r);
            }
            push_int(r, &mut self.code, some as i32);
            push_int(r, &mut self.code, 4);
            self.code.extend([12, 16]);
            self.operands = 0;
            self.left += some;
        }
    }

    /// An operator at this depth, or a number or an escape that is cut.
    fn then(&mut self, r: &mut Random) {
        const OPERATORS: [&[u8]; 22] = [
            &[9],
            &[9],
            &[14],
            &[21],
            &[22],
            &[5],
            &[6],
            &[8],
            &[1],
            &[3],
            &[13],
            &[12, 0],
            &[12, 1],
            &[12, 7],
            &[12, 12],
            &[12, 17],
            &[12, 17],
            &[12, 33],
            &[0x8B, 0x8C, 12, 16],
            &[0x8B, 0x8D, 12, 16],
            &[0x8B, 0x8B, 12, 16],
            &[2],
        ];
        const CUT: [&[u8]; 7] = [&[0xF7], &[0xFB], &[0xFE], &[0xFF], &[0xFF, 0], &[0xFF, 0, 0, 1], &[12]];
        let piece = if r.once_in(6) {
            r.pick(&CUT)
        } else {
            r.pick(&OPERATORS)
        };
        self.code.extend(piece);
        self.operands = 0;
    }
}

/// 20 to 30 numbers, and after them nothing, a number, what is cut, a pop with nothing left, an operator.
pub fn edges() -> Vec<Vec<u8>> {
    let mut all = Vec::new();
    for count in 20..=30 {
        for end in [
            &[][..],
            &[0x8B],
            &[0xF7],
            &[0xFF, 0, 0, 0],
            &[12],
            &[12, 17],
            &[9],
            &[14],
            &[12, 6],
        ] {
            all.push([&vec![0x8B; count], end].concat());
        }
        // One is left for pop, and brings an operand more.
        let left = [0x8C, 0x8C, 0x8F, 12, 16];
        all.push([&left[..], &vec![0x8B; count], &[12, 17]].concat());
    }
    // So many arguments, their count and the number: once, and 14 times, which is too much for the PostScript stack.
    for count in 18..=26 {
        let call = [&vec![0x8B; count][..], &[139 + count as u8, 0x8F, 12, 16]].concat();
        all.push(call.clone());
        all.push(call.repeat(14));
    }
    all
}

/// Up to three times about 24 operands, brought in every way. `between` may add to the charstring.
pub fn glyph(r: &mut Random, mut between: impl FnMut(&mut Random, &mut Vec<u8>)) -> Glyph {
    let subrs = leaving_bodies(r);
    let mut held = Held {
        code: Vec::new(),
        operands: 0,
        left: 0,
    };
    if r.once_in(16) {
        held.fill(r);
    }
    let room = held.code.len() + 400;
    for _ in 0..=r.below(3) {
        let aim = r.pick(&[1, 2, 6, 6, 20, 21, 22, 22, 23, 23, 24, 24, 24, 24, 24, 25, 26, 28, 30]);
        let only_numbers = r.once_in(3);
        while held.operands < aim && held.code.len() < room {
            if only_numbers {
                held.number(r);
            } else {
                held.more(r, aim);
            }
        }
        held.then(r);
        between(r, &mut held.code);
    }
    Glyph {
        plain: held.code,
        subrs,
        len_iv: 4,
    }
}
