/// An error enum: cases of its own, and a case for each error that it can be made from.
#[macro_export]
macro_rules! enum_gen {
    ($(#[$doc:meta])* $name:ident entry: $($entry:ident),+ mapping: $($source:ident),+ $(,)?) => {
        $(#[$doc])*
        #[derive(Clone, Copy, Debug, PartialEq, Eq)]
        pub enum $name {
            $($entry,)+
            $($source($source),)+
        }
        $crate::enum_gen!(@from $name $($source)+);
    };
    ($(#[$doc:meta])* $name:ident mapping: $($source:ident),+ $(,)?) => {
        $(#[$doc])*
        #[derive(Clone, Copy, Debug, PartialEq, Eq)]
        pub enum $name {
            $($source($source),)+
        }
        $crate::enum_gen!(@from $name $($source)+);
    };
    (@from $name:ident $($source:ident)+) => {
        $(impl From<$source> for $name {
            fn from(error: $source) -> Self {
                $name::$source(error)
            }
        })+
    };
}
