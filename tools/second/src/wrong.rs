//! How calls that are wrong in one point are written down.

/// Wrong calls: for each its name, what it is called, and the rule that it replaces, of the `Rules` that the file uses.
macro_rules! wrong {
    ($($name:literal $error:ident { $($rule:item)* })*) => {
        /// The wrong calls of this file, each with its name.
        pub const ERRORS: &[(&str, &dyn Rules)] = &[$(($name, &$error)),*];
        $(
            #[doc = $name]
            pub struct $error;
            impl Rules for $error { $($rule)* }
        )*
    };
}
