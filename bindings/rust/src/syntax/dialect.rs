//! Which parts of Starlark a text may use.

/// Whether a text may have type annotations.
#[derive(Clone, Copy, Debug, PartialEq, Eq, Hash)]
pub enum DialectTypes {
    /// Annotations are refused.
    Disable,
    /// Annotations are parsed and then ignored.
    ParseOnly,
    /// Annotations are parsed and tested.
    Enable,
}

/// Which parts of Starlark a text may use. If a part is off, a text that uses it is refused.
#[derive(Clone, Copy, Debug, PartialEq, Eq, Hash)]
pub struct Dialect {
    /// `def` statements.
    pub enable_def: bool,
    /// `lambda` expressions.
    pub enable_lambda: bool,
    /// `load` statements.
    pub enable_load: bool,
    /// A bare `*` among parameters, after which arguments are given by name alone.
    pub enable_keyword_only_arguments: bool,
    /// A `/` among parameters, before which arguments are given by position alone.
    pub enable_positional_only_arguments: bool,
    /// `if` and `for` statements outside a function.
    pub enable_top_level_stmt: bool,
    /// F-strings, as `f"{name}"`.
    pub enable_f_strings: bool,
    /// Type annotations.
    pub enable_types: DialectTypes,
    /// Whether a symbol that was loaded may be loaded from this module. The parser ignores it: it is for evaluators.
    pub enable_load_reexport: bool,
    /// Nothing: it is there for `Dialect { .., ..Dialect::Standard }`.
    pub _non_exhaustive: (),
}

impl Default for Dialect {
    /// [`Dialect::Standard`].
    fn default() -> Dialect {
        Dialect::Standard
    }
}

// The constants have the names of the original.
#[allow(non_upper_case_globals)]
impl Dialect {
    /// `def`, `lambda` and `load`: what the specification of Starlark has.
    pub const Standard: Dialect = Dialect {
        enable_def: true,
        enable_lambda: true,
        enable_load: true,
        enable_keyword_only_arguments: false,
        enable_positional_only_arguments: false,
        enable_top_level_stmt: false,
        enable_f_strings: false,
        enable_types: DialectTypes::Disable,
        enable_load_reexport: true,
        _non_exhaustive: (),
    };

    /// Every part, but no symbol that was loaded may be loaded from this module.
    pub const Extended: Dialect = Dialect { enable_load_reexport: false, ..Dialect::AllOptionsInternal };

    /// Every part.
    pub const AllOptionsInternal: Dialect = Dialect {
        enable_keyword_only_arguments: true,
        enable_positional_only_arguments: true,
        enable_top_level_stmt: true,
        enable_f_strings: true,
        enable_types: DialectTypes::Enable,
        ..Dialect::Standard
    };

    /// No part. It is this project's own.
    pub const Bare: Dialect =
        Dialect { enable_def: false, enable_lambda: false, enable_load: false, ..Dialect::Standard };

    /// The dialect's number for the library: the sum of the parts of include/starlark.h.
    pub(crate) fn sum(&self) -> u32 {
        let parts = [
            self.enable_def,
            self.enable_lambda,
            self.enable_load,
            self.enable_keyword_only_arguments,
            self.enable_positional_only_arguments,
            self.enable_top_level_stmt,
            self.enable_f_strings,
            self.enable_types == DialectTypes::ParseOnly,
            self.enable_types == DialectTypes::Enable,
        ];
        parts.iter().rev().fold(0, |sum, &part| 2 * sum + u32::from(part))
    }
}

#[cfg(test)]
mod tests {
    use super::*;

    #[test]
    fn sums_are_those_of_the_header() {
        assert_eq!([Dialect::Bare.sum(), Dialect::Standard.sum(), Dialect::AllOptionsInternal.sum()], [0, 7, 383]);
        assert_eq!(Dialect::Extended.sum(), 383);
        let types = Dialect { enable_types: DialectTypes::ParseOnly, ..Dialect::Bare };
        let f_strings = Dialect { enable_f_strings: true, ..Dialect::Bare };
        assert_eq!([types.sum(), f_strings.sum()], [128, 64]);
    }
}
