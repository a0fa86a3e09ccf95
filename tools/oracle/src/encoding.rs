//! A stand-in for stet's table, which nothing that is recorded reads.

pub static STANDARD_ENCODING: [&str; 256] = [""; 256];
