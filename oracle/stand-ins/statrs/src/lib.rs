//! Stands in for statrs: the one function that activity_scoring.rs takes from it, as document 01 defines it.
pub mod function {
    pub mod gamma {
        pub use elementary::ln_gamma;
    }
}
