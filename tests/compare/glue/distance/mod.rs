mod matrix;

pub use matrix::DistanceMatrix;
