mod customer;
mod route;
mod solution;
mod vehicle;

pub use customer::{num_depots, Customer, TimeWindow};
pub use route::{Route, Visit};
pub use solution::{Solution, Violation, ViolationType};
pub use vehicle::{Vehicle, VehicleBreak};
