//! Ties this crate to the archives that it fits.

unsafe extern "C" {
    /// The interface's number is part of the name, so that an archive with other signatures doesn't
    /// link: the error names this symbol. `crates/wirescript/src/interface.rt` exports it. With every
    /// change of a signature the number rises in that file, in this one and in `c/wirescript.h`.
    safe fn wirescript_interface_5() -> u64;
}

/// Refers to the symbol in every program that links this crate, whatever it calls.
#[used]
static INTERFACE: extern "C" fn() -> u64 = wirescript_interface_5;

/// The number of the interface that the linked archive and this crate share.
#[must_use]
pub fn interface() -> u64 {
    INTERFACE()
}

#[cfg(test)]
mod tests {
    use alloc::format;

    /// The archive gives the number that stands in the name.
    #[test]
    fn the_number_is_the_one_in_the_name() {
        let name = format!(" wirescript_interface_{}()", super::interface());
        assert!(include_str!("interface.rs").contains(&name), "no{name}");
    }
}
