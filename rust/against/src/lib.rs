//! Tests alone: the crate `mbrumzheg` against what stands beside it in the repository.
