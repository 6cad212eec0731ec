//! Positions and regions: what noodles-fasta takes from noodles-core, as far as its calls need it.

pub mod position;
pub mod region;

pub use position::Position;
pub use region::Region;
