//! Stand-in for the crate `whereat`, which notes where an error arose. Here the error alone is kept.

#[macro_export]
macro_rules! at {
    ($error:expr) => {
        $error
    };
}
