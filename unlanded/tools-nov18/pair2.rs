#[allow(dead_code)] mod archive; #[allow(dead_code)] mod charstring; #[allow(dead_code)] mod cipher; #[allow(dead_code)] mod encoding; #[allow(dead_code)] mod font; #[allow(dead_code)] mod generate; #[allow(dead_code)] mod geometry; #[allow(dead_code)] mod random; #[allow(dead_code)] mod type1_to_type2; #[allow(dead_code)] mod vector;
use std::ffi::{CString, c_char, c_void, c_int};
unsafe extern "C" { fn dlopen(f: *const c_char, m: c_int) -> *mut c_void; fn dlsym(h: *mut c_void, s: *const c_char) -> *mut c_void; }
type Old = unsafe extern "C" fn(*const u8, usize, *const u8, usize, usize, *const [f64; 6], *mut [u64; 3], usize, *mut u64, usize, *mut u8, usize, *mut [u64; 4]) -> u64;
type New = unsafe extern "C" fn(*const u8, usize, *const u8, usize, usize, u64, *const [f64; 6], *mut [u64; 3], usize, *mut u64, usize, *mut u8, usize, *mut [u64; 4]) -> u64;
type OldF = unsafe extern "C" fn(*const u8, usize, *const u8, usize, usize, *const [f64; 6], *mut [u64; 3], usize, *mut u64, usize, *mut u8, usize, f64, f64, *mut u8, usize, *mut [u64; 4]) -> u64;
type NewF = unsafe extern "C" fn(*const u8, usize, *const u8, usize, usize, u64, *const [f64; 6], *mut [u64; 3], usize, *mut u64, usize, *mut u8, usize, f64, f64, *mut u8, usize, *mut [u64; 4]) -> u64;
fn sym(f: &str, s: &str) -> *mut c_void { unsafe { let h = dlopen(CString::new(f).unwrap().as_ptr(), 2); assert!(!h.is_null()); let p = dlsym(h, CString::new(s).unwrap().as_ptr()); assert!(!p.is_null()); p } }
#[repr(C)] struct Ts { s: i64, n: i64 }
unsafe extern "C" { fn clock_gettime(c: c_int, t: *mut Ts) -> c_int; }
fn now() -> f64 { let mut t = Ts { s: 0, n: 0 }; unsafe { clock_gettime(3, &mut t) }; t.s as f64 * 1e9 + t.n as f64 }
fn bank(b: &[Vec<u8>]) -> Vec<u8> { let mut o = (b.len() as u16).to_be_bytes().to_vec(); let mut at = 0u32; o.extend(at.to_be_bytes()); for x in b { at += x.len() as u32; o.extend(at.to_be_bytes()); } for x in b { o.extend(x); } o }
fn main() {
    let a: Vec<String> = std::env::args().skip(1).collect();
    let rounds: usize = a[2].parse().unwrap();
    let old: Old = unsafe { std::mem::transmute(sym(&a[0], "cribstork_convert")) };
    let oldf: OldF = unsafe { std::mem::transmute(sym(&a[0], "cribstork_convert_finished")) };
    let new: Old = unsafe { std::mem::transmute(sym(&a[1], "cribstork_convert")) };
    let newf: OldF = unsafe { std::mem::transmute(sym(&a[1], "cribstork_convert_finished")) };
    let mut stems = vec![[0u64; 3]; 256]; let mut cmds = vec![0u64; 256 * 14]; let mut prog = vec![0u8; 4096]; let mut out = vec![0u8; 4096]; let mut ans = [0u64; 4];
    let ms: [[f64; 6]; 3] = [[1.0, 0.0, 0.0, 1.0, 0.0, 0.0], [0.5, 0.0, 0.0, 0.5, 0.0, 0.0], [1.0, 0.0, 0.2, 1.0, 0.0, 0.0]];
    for path in &a[3..] {
        let fonts = font::read_all(std::slice::from_ref(path));
        for m in &ms {
            let mut sums = [0.0f64; 4]; let mut n = 0;
            for f in &fonts {
                let bk = bank(&f.subrs);
                let mut t: [Vec<f64>; 4] = Default::default();
                for r in 0..rounds {
                    for i in 0..4 { let k = (i + r) % 4;
                        let s = now();
                        for (_, c) in &f.glyphs { unsafe { match k {
                            0 => old(c.as_ptr(), c.len(), bk.as_ptr(), bk.len(), f.len_iv, m, stems.as_mut_ptr(), 256, cmds.as_mut_ptr(), cmds.len(), out.as_mut_ptr(), 4096, &mut ans),
                            1 => new(c.as_ptr(), c.len(), bk.as_ptr(), bk.len(), f.len_iv, m, stems.as_mut_ptr(), 256, cmds.as_mut_ptr(), cmds.len(), out.as_mut_ptr(), 4096, &mut ans),
                            2 => oldf(c.as_ptr(), c.len(), bk.as_ptr(), bk.len(), f.len_iv, m, stems.as_mut_ptr(), 256, cmds.as_mut_ptr(), cmds.len(), prog.as_mut_ptr(), 4096, 500.0, 600.0, out.as_mut_ptr(), 4096, &mut ans),
                            _ => newf(c.as_ptr(), c.len(), bk.as_ptr(), bk.len(), f.len_iv, m, stems.as_mut_ptr(), 256, cmds.as_mut_ptr(), cmds.len(), prog.as_mut_ptr(), 4096, 500.0, 600.0, out.as_mut_ptr(), 4096, &mut ans),
                        }; } std::hint::black_box(&ans); }
                        t[k].push(now() - s);
                    }
                }
                for k in 0..4 { t[k].sort_by(f64::total_cmp); sums[k] += t[k][t[k].len() / 2]; }
                n += f.glyphs.len();
            }
            let v = sums.map(|x| x / n as f64);
            println!("{} {:?} | convert {:.0} {:.0} {:.4} | finished {:.0} {:.0} {:.4}", path.rsplit('/').next().unwrap(), m, v[0], v[1], v[1] / v[0], v[2], v[3], v[3] / v[2]);
        }
    }
}
