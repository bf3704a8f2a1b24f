//! Enums that can list their own cases.

/// Defines an enum with a constant `ALL`, so that a test that asks for every
/// case cannot forget one that is added later.
macro_rules! listed {
    ($(#[$doc:meta])* $name:ident { $($(#[$case_doc:meta])* $case:ident,)* }) => {
        $(#[$doc])*
        #[derive(Clone, Copy, PartialEq, Eq, PartialOrd, Ord, Hash, Debug)]
        pub enum $name {
            $($(#[$case_doc])* $case,)*
        }

        impl $name {
            /// Every case, in the order of the definition.
            pub const ALL: &'static [$name] = &[$($name::$case,)*];
        }
    };
}

pub(crate) use listed;
