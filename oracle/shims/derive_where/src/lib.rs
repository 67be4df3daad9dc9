pub use derives::derive_where;
