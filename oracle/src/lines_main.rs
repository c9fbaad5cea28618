// The plain batch program by itself, from standard input to standard output: none of our exports is
// linked to it.

#![allow(dead_code)]

mod bits;
mod common;
mod compare;
mod compound;
mod double_double;
mod draw;
mod dyadic_float;
mod edges;
mod lines;
mod ours;
mod random;
mod rounding;
mod told;

use std::io::{stdin, stdout, BufWriter};

// Answers every line.
fn main() -> std::io::Result<()> {
    lines::run(stdin().lock(), BufWriter::new(stdout().lock()))
}
