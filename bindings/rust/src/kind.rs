//! The numbers of the kinds of nodes, of operators and of kinds of errors in docs/COMPACT.md.
use crate::error::ErrorKind;
use crate::syntax::ast::{AssignOp, BinOp};

pub(crate) const TUPLE: u32 = 1;
pub(crate) const DOT: u32 = 2;
pub(crate) const CALL: u32 = 3;
pub(crate) const INDEX: u32 = 4;
pub(crate) const INDEX2: u32 = 5;
pub(crate) const SLICE: u32 = 6;
pub(crate) const IDENTIFIER: u32 = 7;
pub(crate) const LAMBDA: u32 = 8;
pub(crate) const INT: u32 = 9;
pub(crate) const BIG_INT: u32 = 10;
pub(crate) const FLOAT: u32 = 11;
pub(crate) const STRING: u32 = 12;
pub(crate) const BYTES: u32 = 13;
pub(crate) const ELLIPSIS: u32 = 14;
pub(crate) const NOT: u32 = 15;
pub(crate) const MINUS: u32 = 16;
pub(crate) const PLUS: u32 = 17;
pub(crate) const BIT_NOT: u32 = 18;
pub(crate) const OP: u32 = 19;
pub(crate) const CONDITIONAL: u32 = 20;
pub(crate) const LIST: u32 = 21;
pub(crate) const DICT: u32 = 22;
pub(crate) const LIST_COMPREHENSION: u32 = 23;
pub(crate) const DICT_COMPREHENSION: u32 = 24;
pub(crate) const F_STRING: u32 = 25;
pub(crate) const ABSENT: u32 = 26;
pub(crate) const PRESENT: u32 = 27;
pub(crate) const NO_TYPE: u32 = 28;
pub(crate) const TYPE_EXPR: u32 = 29;
pub(crate) const POSITIONAL: u32 = 30;
pub(crate) const NAMED: u32 = 31;
pub(crate) const ARGS: u32 = 32;
pub(crate) const KWARGS: u32 = 33;
pub(crate) const SLASH: u32 = 34;
pub(crate) const NORMAL: u32 = 35;
pub(crate) const NO_ARGS: u32 = 36;
pub(crate) const ARGS_PARAMETER: u32 = 37;
pub(crate) const KWARGS_PARAMETER: u32 = 38;
pub(crate) const FOR_CLAUSE: u32 = 39;
pub(crate) const IF_CLAUSE: u32 = 40;
pub(crate) const TUPLE_TARGET: u32 = 41;
pub(crate) const INDEX_TARGET: u32 = 42;
pub(crate) const DOT_TARGET: u32 = 43;
pub(crate) const IDENTIFIER_TARGET: u32 = 44;
pub(crate) const BREAK: u32 = 45;
pub(crate) const CONTINUE: u32 = 46;
pub(crate) const PASS: u32 = 47;
pub(crate) const RETURN: u32 = 48;
pub(crate) const EXPRESSION: u32 = 49;
pub(crate) const ASSIGN: u32 = 50;
pub(crate) const ASSIGN_MODIFY: u32 = 51;
pub(crate) const STATEMENTS: u32 = 52;
pub(crate) const IF: u32 = 53;
pub(crate) const IF_ELSE: u32 = 54;
pub(crate) const FOR: u32 = 55;
pub(crate) const DEF: u32 = 56;
pub(crate) const LOAD: u32 = 57;

/// The binary operators in the order of their numbers, from 0.
pub(crate) const BIN_OPS: [BinOp; 21] = [
    BinOp::Or,
    BinOp::And,
    BinOp::Equal,
    BinOp::NotEqual,
    BinOp::Less,
    BinOp::Greater,
    BinOp::LessOrEqual,
    BinOp::GreaterOrEqual,
    BinOp::In,
    BinOp::NotIn,
    BinOp::Subtract,
    BinOp::Add,
    BinOp::Multiply,
    BinOp::Percent,
    BinOp::Divide,
    BinOp::FloorDivide,
    BinOp::BitAnd,
    BinOp::BitOr,
    BinOp::BitXor,
    BinOp::LeftShift,
    BinOp::RightShift,
];

/// The operators of augmented assignments in the order of their numbers, from 0.
pub(crate) const ASSIGN_OPS: [AssignOp; 11] = [
    AssignOp::Add,
    AssignOp::Subtract,
    AssignOp::Multiply,
    AssignOp::Divide,
    AssignOp::FloorDivide,
    AssignOp::Percent,
    AssignOp::BitAnd,
    AssignOp::BitOr,
    AssignOp::BitXor,
    AssignOp::LeftShift,
    AssignOp::RightShift,
];

/// The kinds of errors in the order of their numbers, from 1.
pub(crate) const ERRORS: [ErrorKind; 11] = [
    ErrorKind::TextTooLong,
    ErrorKind::Memory,
    ErrorKind::Lexer,
    ErrorKind::UnexpectedToken,
    ErrorKind::UnexpectedEnd,
    ErrorKind::Grammar,
    ErrorKind::Call,
    ErrorKind::Params,
    ErrorKind::TypeExpr,
    ErrorKind::Dialect,
    ErrorKind::Place,
];
