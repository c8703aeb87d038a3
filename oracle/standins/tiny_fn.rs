/// A struct that owns a closure with the given parameters. The original avoids the heap for small closures.
#[macro_export]
macro_rules! tiny_fn {
    ($(#[$doc:meta])* pub struct $name:ident<$t:ident> =
        FnMut($($parameter:ident: $kind:ty),*) -> $answer:ty;) => {
        $(#[$doc])*
        pub struct $name<'closure, $t> {
            closure: ::std::boxed::Box<dyn FnMut($($kind),*) -> $answer + 'closure>,
        }

        impl<'closure, $t> $name<'closure, $t> {
            pub fn new<F: FnMut($($kind),*) -> $answer + 'closure>(closure: F) -> Self {
                Self { closure: ::std::boxed::Box::new(closure) }
            }

            pub fn call(&mut self, $($parameter: $kind),*) -> $answer {
                (self.closure)($($parameter),*)
            }
        }
    };
}
