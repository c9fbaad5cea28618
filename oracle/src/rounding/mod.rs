// A stand-in for the crate's `rounding`: it names the one copied file and holds no code.

pub(crate) mod round_ties_even;

pub(crate) use round_ties_even::CpuRoundTiesEven;
