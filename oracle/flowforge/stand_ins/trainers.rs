pub mod remy;
