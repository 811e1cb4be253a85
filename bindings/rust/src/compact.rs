//! A reader of the compact format of docs/COMPACT.md.
//!
//! Each node comes after its parts. So the reader keeps the nodes whose parent is not read yet on stacks, one for each
//! family of nodes, and does not recurse, however deep the text nests.
use crate::bytes::{Bytes, Malformed, Result};
use crate::codemap::{Span, Spanned};
use crate::error::Fault;
use crate::kind;
use crate::syntax::ast::*;

/// What a text is parsed to.
#[derive(Debug)]
pub(crate) struct Module {
    /// The tree: of a text of one statement that statement, else [`Stmt::Statements`].
    pub(crate) statement: AstStmt,
    /// Where the comments are, each with its `#`, in the order of the text.
    pub(crate) comments: Vec<Span>,
}

const VERSION: u32 = 1;
const MODULE: u32 = 0;

/// Reads a result: the module, or the error of the text.
pub(crate) fn answer(bytes: &[u8]) -> Result<std::result::Result<Module, Fault>> {
    let mut r = Bytes::new(bytes);
    if r.number()? != VERSION {
        return Err(Malformed);
    }
    match r.number()? {
        MODULE => Ok(Ok(module(&mut r)?)),
        kind => Ok(Err(error(&mut r, kind)?)),
    }
}

fn module(r: &mut Bytes<'_>) -> Result<Module> {
    let comments = r.list(Bytes::span)?;
    let mut nodes = Nodes::default();
    while !r.is_at_end() {
        nodes.add(r)?;
    }
    let statement = nodes.whole()?;
    Ok(Module { statement, comments })
}

fn error(r: &mut Bytes<'_>, kind: u32) -> Result<Fault> {
    let kind = numbered(&kind::ERRORS, kind.checked_sub(1).ok_or(Malformed)?)?;
    let message = r.text()?.to_owned();
    let span = if r.flag()? { Some(place(r)?) } else { None };
    if r.is_at_end() { Ok(Fault { kind, message, span }) } else { Err(Malformed) }
}

/// The span of an error. Its lines and columns are those that the code map gives.
fn place(r: &mut Bytes<'_>) -> Result<Span> {
    let span = r.span()?;
    for _ in 0..4 {
        r.number()?;
    }
    Ok(span)
}

/// The item of this number, from 0.
fn numbered<T: Copy>(all: &[T], number: u32) -> Result<T> {
    let index = usize::try_from(number).map_err(|_| Malformed)?;
    all.get(index).copied().ok_or(Malformed)
}

fn string(r: &mut Bytes<'_>) -> Result<AstString> {
    let span = r.span()?;
    Ok(Spanned { node: r.text()?.to_owned(), span })
}

fn bound(r: &mut Bytes<'_>, span: Span) -> Result<AstAssignIdent> {
    Ok(Spanned { node: AssignIdent { ident: r.text()?.to_owned(), payload: () }, span })
}

fn bound_name(r: &mut Bytes<'_>) -> Result<AstAssignIdent> {
    let span = r.span()?;
    bound(r, span)
}

fn load_arg(r: &mut Bytes<'_>) -> Result<LoadArgP<AstNoPayload>> {
    let local = bound_name(r)?;
    let their = string(r)?;
    let comma = if r.flag()? { Some(Spanned { node: Comma, span: r.span()? }) } else { None };
    Ok(LoadArgP { local, their, comma })
}

/// Pops the last item of a stack.
fn pop<T>(stack: &mut Vec<T>) -> Result<T> {
    stack.pop().ok_or(Malformed)
}

fn pop_box<T>(stack: &mut Vec<T>) -> Result<Box<T>> {
    pop(stack).map(Box::new)
}

fn pop_option_box<T>(stack: &mut Vec<Option<T>>) -> Result<Option<Box<T>>> {
    Ok(pop(stack)?.map(Box::new))
}

/// Pops the last `count` items of a stack, which stay in order.
fn pop_all<T>(stack: &mut Vec<T>, count: usize) -> Result<Vec<T>> {
    let begin = stack.len().checked_sub(count).ok_or(Malformed)?;
    Ok(stack.drain(begin..).collect())
}

/// The nodes whose parent is not read yet, in the order in which they were read.
#[derive(Default)]
struct Nodes {
    exprs: Vec<AstExpr>,
    optional_exprs: Vec<Option<AstExpr>>,
    optional_types: Vec<Option<AstTypeExpr>>,
    args: Vec<AstArgument>,
    params: Vec<AstParameter>,
    clauses: Vec<Clause>,
    targets: Vec<AstAssignTarget>,
    stmts: Vec<AstStmt>,
}

impl Nodes {
    /// Reads a node, after its parts.
    fn add(&mut self, r: &mut Bytes<'_>) -> Result<()> {
        match r.number()? {
            kind @ kind::TUPLE..=kind::F_STRING => {
                let span = r.span()?;
                let node = self.expr(r, kind, span)?;
                self.exprs.push(Spanned { node, span });
            }
            kind::ABSENT => self.optional_exprs.push(None),
            kind::PRESENT => self.optional_exprs.push(Some(pop(&mut self.exprs)?)),
            kind::NO_TYPE => self.optional_types.push(None),
            kind::TYPE_EXPR => {
                let span = r.span()?;
                let node = TypeExpr { expr: pop(&mut self.exprs)?, payload: () };
                self.optional_types.push(Some(Spanned { node, span }));
            }
            kind @ kind::POSITIONAL..=kind::KWARGS => {
                let span = r.span()?;
                let node = self.argument(r, kind)?;
                self.args.push(Spanned { node, span });
            }
            kind @ kind::SLASH..=kind::KWARGS_PARAMETER => {
                let span = r.span()?;
                let node = self.parameter(r, kind)?;
                self.params.push(Spanned { node, span });
            }
            kind::FOR_CLAUSE => {
                let clause = self.for_clause()?;
                self.clauses.push(Clause::For(clause));
            }
            kind::IF_CLAUSE => self.clauses.push(Clause::If(pop(&mut self.exprs)?)),
            kind @ kind::TUPLE_TARGET..=kind::IDENTIFIER_TARGET => {
                let span = r.span()?;
                let node = self.target(r, kind, span)?;
                self.targets.push(Spanned { node, span });
            }
            kind => {
                let span = r.span()?;
                let node = self.stmt(r, kind)?;
                self.stmts.push(Spanned { node, span });
            }
        }
        Ok(())
    }

    /// The statement that is the whole tree, if no other node is left.
    fn whole(self) -> Result<AstStmt> {
        let Nodes { exprs, optional_exprs, optional_types, args, params, clauses, targets, mut stmts } = self;
        let statement = pop(&mut stmts)?;
        let are_in_it = exprs.is_empty()
            && optional_exprs.is_empty()
            && optional_types.is_empty()
            && args.is_empty()
            && params.is_empty()
            && clauses.is_empty()
            && targets.is_empty()
            && stmts.is_empty();
        if are_in_it { Ok(statement) } else { Err(Malformed) }
    }

    fn expr(&mut self, r: &mut Bytes<'_>, kind: u32, span: Span) -> Result<Expr> {
        Ok(match kind {
            kind::TUPLE => Expr::Tuple(pop_all(&mut self.exprs, r.count()?)?),
            kind::DOT => Expr::Dot(pop_box(&mut self.exprs)?, string(r)?),
            kind::CALL => self.call(r)?,
            kind::INDEX => Expr::Index(self.two()?),
            kind::INDEX2 => Expr::Index2(self.three()?),
            kind::SLICE => self.slice()?,
            kind::IDENTIFIER => {
                Expr::Identifier(Spanned { node: Ident { ident: r.text()?.to_owned(), payload: () }, span })
            }
            kind::LAMBDA => self.lambda(r)?,
            kind::NOT => Expr::Not(pop_box(&mut self.exprs)?),
            kind::MINUS => Expr::Minus(pop_box(&mut self.exprs)?),
            kind::PLUS => Expr::Plus(pop_box(&mut self.exprs)?),
            kind::BIT_NOT => Expr::BitNot(pop_box(&mut self.exprs)?),
            kind::OP => self.operation(r)?,
            kind::CONDITIONAL => Expr::If(self.three()?),
            kind::LIST => Expr::List(pop_all(&mut self.exprs, r.count()?)?),
            kind::DICT => Expr::Dict(self.entries(r.count()?)?),
            kind::LIST_COMPREHENSION => self.list_comprehension(r)?,
            kind::DICT_COMPREHENSION => self.dict_comprehension(r)?,
            kind::F_STRING => self.f_string(r, span)?,
            _ => Expr::Literal(literal(r, kind, span)?),
        })
    }

    fn two(&mut self) -> Result<Box<(AstExpr, AstExpr)>> {
        let second = pop(&mut self.exprs)?;
        let first = pop(&mut self.exprs)?;
        Ok(Box::new((first, second)))
    }

    fn three(&mut self) -> Result<Box<(AstExpr, AstExpr, AstExpr)>> {
        let third = pop(&mut self.exprs)?;
        let second = pop(&mut self.exprs)?;
        let first = pop(&mut self.exprs)?;
        Ok(Box::new((first, second, third)))
    }

    fn call(&mut self, r: &mut Bytes<'_>) -> Result<Expr> {
        let args = pop_all(&mut self.args, r.count()?)?;
        Ok(Expr::Call(pop_box(&mut self.exprs)?, CallArgsP { args }))
    }

    fn slice(&mut self) -> Result<Expr> {
        let step = pop_option_box(&mut self.optional_exprs)?;
        let stop = pop_option_box(&mut self.optional_exprs)?;
        let start = pop_option_box(&mut self.optional_exprs)?;
        Ok(Expr::Slice(pop_box(&mut self.exprs)?, start, stop, step))
    }

    fn lambda(&mut self, r: &mut Bytes<'_>) -> Result<Expr> {
        let params = pop_all(&mut self.params, r.count()?)?;
        let body = pop_box(&mut self.exprs)?;
        Ok(Expr::Lambda(LambdaP { params, body, payload: () }))
    }

    fn operation(&mut self, r: &mut Bytes<'_>) -> Result<Expr> {
        let op = numbered(&kind::BIN_OPS, r.number()?)?;
        let right = pop_box(&mut self.exprs)?;
        let left = pop_box(&mut self.exprs)?;
        Ok(Expr::Op(left, op, right))
    }

    fn entries(&mut self, count: usize) -> Result<Vec<(AstExpr, AstExpr)>> {
        let begin = count.checked_mul(2).and_then(|parts| self.exprs.len().checked_sub(parts)).ok_or(Malformed)?;
        let mut entries = Vec::with_capacity(count);
        let mut parts = self.exprs.drain(begin..);
        while let (Some(key), Some(value)) = (parts.next(), parts.next()) {
            entries.push((key, value));
        }
        Ok(entries)
    }

    /// The clauses of a comprehension: the first, and as many after it.
    fn clauses(&mut self, r: &mut Bytes<'_>) -> Result<(Box<ForClause>, Vec<Clause>)> {
        let rest = pop_all(&mut self.clauses, r.count()?)?;
        match pop(&mut self.clauses)? {
            Clause::For(first) => Ok((Box::new(first), rest)),
            Clause::If(_) => Err(Malformed),
        }
    }

    fn list_comprehension(&mut self, r: &mut Bytes<'_>) -> Result<Expr> {
        let (first, rest) = self.clauses(r)?;
        Ok(Expr::ListComprehension(pop_box(&mut self.exprs)?, first, rest))
    }

    fn dict_comprehension(&mut self, r: &mut Bytes<'_>) -> Result<Expr> {
        let (first, rest) = self.clauses(r)?;
        Ok(Expr::DictComprehension(self.two()?, first, rest))
    }

    fn f_string(&mut self, r: &mut Bytes<'_>, span: Span) -> Result<Expr> {
        let format = string(r)?;
        let expressions = pop_all(&mut self.exprs, r.count()?)?;
        Ok(Expr::FString(Spanned { node: FStringP { format, expressions }, span }))
    }

    fn argument(&mut self, r: &mut Bytes<'_>, kind: u32) -> Result<Argument> {
        let value = pop(&mut self.exprs)?;
        Ok(match kind {
            kind::POSITIONAL => Argument::Positional(value),
            kind::NAMED => Argument::Named(string(r)?, value),
            kind::ARGS => Argument::Args(value),
            _ => Argument::KwArgs(value),
        })
    }

    fn parameter(&mut self, r: &mut Bytes<'_>, kind: u32) -> Result<Parameter> {
        Ok(match kind {
            kind::SLASH => Parameter::Slash,
            kind::NO_ARGS => Parameter::NoArgs,
            kind::NORMAL => self.normal(r)?,
            kind::ARGS_PARAMETER => Parameter::Args(bound_name(r)?, pop_option_box(&mut self.optional_types)?),
            _ => Parameter::KwArgs(bound_name(r)?, pop_option_box(&mut self.optional_types)?),
        })
    }

    fn normal(&mut self, r: &mut Bytes<'_>) -> Result<Parameter> {
        let name = bound_name(r)?;
        let default = pop_option_box(&mut self.optional_exprs)?;
        let ty = pop_option_box(&mut self.optional_types)?;
        Ok(Parameter::Normal(name, ty, default))
    }

    fn for_clause(&mut self) -> Result<ForClause> {
        Ok(ForClause { var: pop(&mut self.targets)?, over: pop(&mut self.exprs)? })
    }

    fn target(&mut self, r: &mut Bytes<'_>, kind: u32, span: Span) -> Result<AssignTarget> {
        Ok(match kind {
            kind::TUPLE_TARGET => AssignTarget::Tuple(pop_all(&mut self.targets, r.count()?)?),
            kind::INDEX_TARGET => AssignTarget::Index(self.two()?),
            kind::DOT_TARGET => AssignTarget::Dot(pop_box(&mut self.exprs)?, string(r)?),
            _ => AssignTarget::Identifier(bound(r, span)?),
        })
    }

    fn stmt(&mut self, r: &mut Bytes<'_>, kind: u32) -> Result<Stmt> {
        Ok(match kind {
            kind::BREAK => Stmt::Break,
            kind::CONTINUE => Stmt::Continue,
            kind::PASS => Stmt::Pass,
            kind::RETURN => Stmt::Return(pop(&mut self.optional_exprs)?),
            kind::EXPRESSION => Stmt::Expression(pop(&mut self.exprs)?),
            kind::ASSIGN => self.assign()?,
            kind::ASSIGN_MODIFY => self.assign_modify(r)?,
            kind::STATEMENTS => Stmt::Statements(pop_all(&mut self.stmts, r.count()?)?),
            kind::IF => Stmt::If(pop(&mut self.exprs)?, pop_box(&mut self.stmts)?),
            kind::IF_ELSE => self.if_else()?,
            kind::FOR => self.for_loop()?,
            kind::DEF => self.def(r)?,
            kind::LOAD => load(r)?,
            _ => return Err(Malformed),
        })
    }

    fn assign(&mut self) -> Result<Stmt> {
        let ty = pop(&mut self.optional_types)?;
        Ok(Stmt::Assign(AssignP { lhs: pop(&mut self.targets)?, ty, rhs: pop(&mut self.exprs)? }))
    }

    fn assign_modify(&mut self, r: &mut Bytes<'_>) -> Result<Stmt> {
        let op = numbered(&kind::ASSIGN_OPS, r.number()?)?;
        Ok(Stmt::AssignModify(pop(&mut self.targets)?, op, pop_box(&mut self.exprs)?))
    }

    fn if_else(&mut self) -> Result<Stmt> {
        let otherwise = pop(&mut self.stmts)?;
        let then = pop(&mut self.stmts)?;
        Ok(Stmt::IfElse(pop(&mut self.exprs)?, Box::new((then, otherwise))))
    }

    fn for_loop(&mut self) -> Result<Stmt> {
        let var = pop(&mut self.targets)?;
        let over = pop(&mut self.exprs)?;
        Ok(Stmt::For(ForP { var, over, body: pop_box(&mut self.stmts)? }))
    }

    fn def(&mut self, r: &mut Bytes<'_>) -> Result<Stmt> {
        let name = bound_name(r)?;
        let params = pop_all(&mut self.params, r.count()?)?;
        let return_type = pop_option_box(&mut self.optional_types)?;
        let body = pop_box(&mut self.stmts)?;
        Ok(Stmt::Def(DefP { name, params, return_type, body, payload: () }))
    }
}

fn literal(r: &mut Bytes<'_>, kind: u32, span: Span) -> Result<AstLiteral> {
    Ok(match kind {
        kind::INT => AstLiteral::Int(Spanned { node: TokenInt::I32(r.signed()?), span }),
        kind::BIG_INT => AstLiteral::Int(Spanned { node: TokenInt::BigInt(r.text()?.to_owned()), span }),
        kind::FLOAT => AstLiteral::Float(Spanned { node: r.text()?.parse().map_err(|_| Malformed)?, span }),
        kind::STRING => AstLiteral::String(Spanned { node: r.text()?.to_owned(), span }),
        kind::BYTES => AstLiteral::Bytes(Spanned { node: r.bytes()?.to_owned(), span }),
        kind::ELLIPSIS => AstLiteral::Ellipsis,
        _ => return Err(Malformed),
    })
}

fn load(r: &mut Bytes<'_>) -> Result<Stmt> {
    let module = string(r)?;
    let args = r.list(load_arg)?;
    Ok(Stmt::Load(LoadP { module, args, payload: () }))
}

#[cfg(test)]
mod tests {
    use super::answer;
    use crate::bytes::Malformed;
    use crate::error::Fault;
    use crate::ffi::{self, Format};
    use crate::syntax::Dialect;

    const TEXT: &str = r#"
load("m", "a", b = "c") # one
def f(x: int = 1, *, y, **z) -> str:
  return [a + f(b, k = not y, *x)[1:2] for a, b in {1: 2.5}.items() if not a]
x[0], (y.z, w) = lambda q, /, *r: f"{q}" if q else ..., 99999999999, b"\0"
if x: pass
else: x += 1
"#;

    fn bytes(text: &str) -> Result<Vec<u8>, Fault> {
        ffi::answer(text, Dialect::AllOptionsInternal.sum(), Format::Compact, 250)
    }

    /// The front up to the end of the first statement is that of another text.
    #[test]
    fn fronts_of_an_answer_are_refused() -> Result<(), Fault> {
        for (text, others) in [(TEXT, 1), ("x = 1", 0), ("x = = 1", 0), ("", 0)] {
            let bytes = bytes(text)?;
            assert!(answer(&bytes).is_ok());
            let accepted = (0..bytes.len()).filter(|end| answer(&bytes[..*end]).is_ok()).count();
            assert_eq!(accepted, others, "{text}");
        }
        Ok(())
    }

    #[test]
    fn more_than_an_answer_is_refused() -> Result<(), Fault> {
        for text in [TEXT, "x = = 1", ""] {
            for more in [&[0][..], &[1, 0, 0, 0], &[47, 0, 0, 0, 0, 0, 0, 0, 0, 0, 0, 0]] {
                assert!(matches!(answer(&[&bytes(text)?, more].concat()), Err(Malformed)));
            }
        }
        Ok(())
    }

    #[test]
    fn another_byte_is_refused_or_says_another_answer() -> Result<(), Fault> {
        let bytes = bytes(TEXT)?;
        let whole = format!("{:?}", answer(&bytes));
        for at in 0..bytes.len() {
            for byte in [0, 1, 2, 3, 5, 9, 13, 19, 26, 28, 41, 52, 57, 58, 64, 127, 128, 255] {
                if bytes[at] != byte {
                    let mut other = bytes.clone();
                    other[at] = byte;
                    let answer = answer(&other);
                    assert!(answer.is_err() || format!("{answer:?}") != whole, "{at}: {byte}");
                }
            }
        }
        Ok(())
    }

    /// Bytes that are changed, left out, doubled and moved at random give a tree or an error, and no panic.
    #[test]
    fn any_bytes_have_an_answer() -> Result<(), Fault> {
        let whole = bytes(TEXT)?;
        let mut state = 1u64;
        let mut below = |count: usize| {
            state = state.wrapping_mul(6_364_136_223_846_793_005).wrapping_add(1_442_695_040_888_963_407);
            usize::try_from(state >> 33).map_or(0, |number| number % count)
        };
        for _ in 0..20_000 {
            let mut bytes = whole.clone();
            for _ in 0..=below(4) {
                let (begin, count) = (below(bytes.len().saturating_sub(32).max(1)), below(32.min(bytes.len())));
                match below(4) {
                    0 => bytes[begin] = [0, 1, 47, 127, 255][below(5)],
                    1 => drop(bytes.drain(begin..begin + count)),
                    2 => bytes.extend_from_within(begin..begin + count),
                    _ => bytes[begin..begin + count].rotate_left(count / 2),
                }
            }
            drop(answer(&bytes));
        }
        Ok(())
    }
}
