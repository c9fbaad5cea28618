// A stand-in for the crate's `compound`: it names the one copied file and holds no code.

pub(crate) mod compoundf;
