//! A value that the compiler must make and must not see through: `std::hint::black_box`, which Debian 12's Rust does not have.

pub fn black_box<T>(value: T) -> T {
    unsafe { std::arch::asm!("/* {0} */", in(reg) &value, options(nostack, preserves_flags)) };
    value
}
