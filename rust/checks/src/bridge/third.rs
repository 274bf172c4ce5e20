//! The peer of the benchmarks behind the same boundary: the third opinion.

behind!(::peer);
