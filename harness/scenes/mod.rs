//! Random scripts of calls.

mod keep_outs;
mod leaves;
mod numbers;
mod planners;
pub mod random;
mod scene;
pub mod script;
mod setups;
