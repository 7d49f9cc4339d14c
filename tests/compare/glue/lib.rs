pub mod constructive;
pub mod distance;
pub mod evaluation;
pub mod fleet;
pub mod home;
pub mod models;
