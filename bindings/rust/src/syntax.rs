//! A text as a module: its tree, and what can be asked of it.
pub mod ast;
mod ast_load;
pub mod call;
pub mod def;
mod dialect;
mod display;
mod held;
pub mod lint;
mod lint_suppressions;
pub mod module;
pub mod parts;
pub mod payload_map;
mod suppressing;
pub mod top_level_stmts;
pub mod type_expr;
pub mod uniplate;

pub use ast_load::{AstLoad, Symbols};
pub use dialect::{Dialect, DialectTypes};
pub use module::AstModule;
