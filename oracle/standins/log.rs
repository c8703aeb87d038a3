//! Faults are handed on as the crate asks for it. Messages are type-checked and never written.

#[doc(hidden)]
#[macro_export]
macro_rules! unwritten {
    ($origin:expr, $($message:expr),* $(,)?) => {
        if false {
            let _ = &$origin;
            let _ = ::std::format!($($message),*);
        }
    };
}

/// Leaves the function with an error: always, or when a call failed; with a given error, or with the call's own.
#[macro_export]
macro_rules! fail {
    (from $origin:expr, when $call:expr, with $error:expr, $($message:expr),* $(,)?) => {
        match $call {
            Ok(value) => value,
            Err(_) => {
                $crate::unwritten!($origin, $($message),*);
                return Err($error);
            }
        }
    };
    (from $origin:expr, when $call:expr, $($message:expr),* $(,)?) => {
        match $call {
            Ok(value) => value,
            Err(error) => {
                $crate::unwritten!($origin, $($message),*);
                return Err(error.into());
            }
        }
    };
    (from $origin:expr, with $error:expr, $($message:expr),* $(,)?) => {{
        $crate::unwritten!($origin, $($message),*);
        return Err($error);
    }};
}

/// Panics: always, or when a call failed.
#[macro_export]
macro_rules! fatal_panic {
    (from $origin:expr, when $call:expr, $($message:expr),* $(,)?) => {
        match $call {
            Ok(value) => value,
            Err(_) => {
                let _ = &$origin;
                ::std::panic!($($message),*)
            }
        }
    };
    (from $origin:expr, $($message:expr),* $(,)?) => {{
        let _ = &$origin;
        ::std::panic!($($message),*)
    }};
}

#[macro_export]
macro_rules! debug {
    (from $origin:expr, $($message:expr),* $(,)?) => { $crate::unwritten!($origin, $($message),*) };
}

#[macro_export]
macro_rules! warn {
    (from $origin:expr, $($message:expr),* $(,)?) => { $crate::unwritten!($origin, $($message),*) };
}
