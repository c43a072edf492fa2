//! The reference's tables in the layout of `include/swarmbanner.h`.

use reference_checker::flat::Flat;
use reference_checker::read::Tables;

pub fn flat(tables: &Tables) -> Vec<u8> {
    Flat::of(tables).0.to_vec()
}
