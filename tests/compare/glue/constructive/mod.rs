mod clarke_wright;
mod multi_depot;
mod nearest_neighbor;
mod nn_tw;
mod solomon_i1;
mod sweep;

pub use clarke_wright::clarke_wright_savings;
pub use multi_depot::construct_by_depot;
pub use nearest_neighbor::nearest_neighbor;
pub use nn_tw::nearest_neighbor_tw;
pub use solomon_i1::solomon_i1;
pub use sweep::sweep;
