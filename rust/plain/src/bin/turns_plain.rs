//! The program `turns` of document 01 over the plain desk: commands on standard input, answers on
//! standard output.

use std::io::{self, BufReader, BufWriter};

fn main() -> io::Result<()> {
    let input = BufReader::with_capacity(1 << 16, io::stdin().lock());
    let output = BufWriter::with_capacity(1 << 16, io::stdout().lock());
    plain::turns::run(input, output)
}
