//! Stands for the `bitflags` crate: as much of it as `MountTypeFlags` uses, which no fit reads.

#[macro_export]
macro_rules! bitflags {
    ($(#[$meta:meta])* pub struct $name:ident: $int:ty { $(const $flag:ident = $value:expr;)* }) => {
        $(#[$meta])*
        pub struct $name($int);
        impl $name {
            $(pub const $flag: Self = Self($value);)*
        }
    };
}
