//! Nodes as text, in the notation of the original: parentheses around each operation, two spaces for each block. It is
//! for people, and is not source.
use crate::syntax::ast::*;
use std::fmt::{self, Display, Formatter, Write};

impl Display for BinOp {
    /// The operator with a space on each side.
    fn fmt(&self, f: &mut Formatter<'_>) -> fmt::Result {
        f.write_str(match self {
            BinOp::Or => " or ",
            BinOp::And => " and ",
            BinOp::Equal => " == ",
            BinOp::NotEqual => " != ",
            BinOp::Less => " < ",
            BinOp::Greater => " > ",
            BinOp::LessOrEqual => " <= ",
            BinOp::GreaterOrEqual => " >= ",
            BinOp::In => " in ",
            BinOp::NotIn => " not in ",
            BinOp::Subtract => " - ",
            BinOp::Add => " + ",
            BinOp::Multiply => " * ",
            BinOp::Percent => " % ",
            BinOp::Divide => " / ",
            BinOp::FloorDivide => " // ",
            BinOp::BitAnd => " & ",
            BinOp::BitOr => " | ",
            BinOp::BitXor => " ^ ",
            BinOp::LeftShift => " << ",
            BinOp::RightShift => " >> ",
        })
    }
}

impl Display for AssignOp {
    /// The operator with a space on each side.
    fn fmt(&self, f: &mut Formatter<'_>) -> fmt::Result {
        f.write_str(match self {
            AssignOp::Add => " += ",
            AssignOp::Subtract => " -= ",
            AssignOp::Multiply => " *= ",
            AssignOp::Divide => " /= ",
            AssignOp::FloorDivide => " //= ",
            AssignOp::Percent => " %= ",
            AssignOp::BitAnd => " &= ",
            AssignOp::BitOr => " |= ",
            AssignOp::BitXor => " ^= ",
            AssignOp::LeftShift => " <<= ",
            AssignOp::RightShift => " >>= ",
        })
    }
}

/// Writes items with `, ` between.
fn list<T>(f: &mut Formatter<'_>, items: &[T], item: impl Fn(&mut Formatter<'_>, &T) -> fmt::Result) -> fmt::Result {
    for (at, each) in items.iter().enumerate() {
        if at > 0 {
            f.write_str(", ")?;
        }
        item(f, each)?;
    }
    Ok(())
}

/// Writes nodes with `, ` between.
fn nodes<T: Display>(f: &mut Formatter<'_>, items: &[crate::codemap::Spanned<T>]) -> fmt::Result {
    list(f, items, |f, item| item.node.fmt(f))
}

/// Writes a tuple: one of one item has a comma.
fn tuple<T: Display>(f: &mut Formatter<'_>, items: &[crate::codemap::Spanned<T>]) -> fmt::Result {
    f.write_char('(')?;
    nodes(f, items)?;
    f.write_str(if items.len() == 1 { ",)" } else { ")" })
}

/// Writes a string literal of this value.
fn quoted(f: &mut Formatter<'_>, text: &str) -> fmt::Result {
    f.write_char('"')?;
    for c in text.chars() {
        match c {
            '\n' => f.write_str("\\n")?,
            '\t' => f.write_str("\\t")?,
            '\r' => f.write_str("\\r")?,
            '\0' => f.write_str("\\0")?,
            '"' | '\\' => write!(f, "\\{c}")?,
            c => f.write_char(c)?,
        }
    }
    f.write_char('"')
}

/// Writes a bytes literal of this value.
fn quoted_bytes(f: &mut Formatter<'_>, bytes: &[u8]) -> fmt::Result {
    f.write_str("b\"")?;
    for byte in bytes {
        match byte {
            b'\n' => f.write_str("\\n")?,
            b'\t' => f.write_str("\\t")?,
            b'\r' => f.write_str("\\r")?,
            b'"' | b'\\' => write!(f, "\\{}", char::from(*byte))?,
            b' '..=b'~' => f.write_char(char::from(*byte))?,
            _ => write!(f, "\\x{byte:02x}")?,
        }
    }
    f.write_char('"')
}

impl Display for AstLiteral {
    fn fmt(&self, f: &mut Formatter<'_>) -> fmt::Result {
        match self {
            AstLiteral::Int(value) => value.node.fmt(f),
            AstLiteral::Float(value) => value.node.fmt(f),
            AstLiteral::String(value) => quoted(f, value),
            AstLiteral::Bytes(value) => quoted_bytes(f, value),
            AstLiteral::Ellipsis => f.write_str("..."),
        }
    }
}

impl<P: AstPayload> Display for ExprP<P> {
    fn fmt(&self, f: &mut Formatter<'_>) -> fmt::Result {
        match self {
            ExprP::Tuple(items) => tuple(f, items),
            ExprP::List(items) => {
                f.write_char('[')?;
                nodes(f, items)?;
                f.write_char(']')
            }
            ExprP::Dict(entries) => {
                f.write_char('{')?;
                list(f, entries, |f, (key, value)| write!(f, "{}: {}", key.node, value.node))?;
                f.write_char('}')
            }
            ExprP::Dot(object, name) => write!(f, "{}.{}", object.node, name.node),
            ExprP::Call(callee, args) => {
                write!(f, "{}(", callee.node)?;
                nodes(f, &args.args)?;
                f.write_char(')')
            }
            ExprP::Index(parts) => write!(f, "{}[{}]", parts.0.node, parts.1.node),
            ExprP::Index2(parts) => write!(f, "{}[{}, {}]", parts.0.node, parts.1.node, parts.2.node),
            ExprP::Slice(array, start, stop, step) => slice(f, array, [start, stop, step]),
            ExprP::Identifier(name) => name.node.fmt(f),
            ExprP::Lambda(lambda) => lambda.fmt(f),
            ExprP::Literal(literal) => literal.fmt(f),
            ExprP::Not(operand) => write!(f, "(not {})", operand.node),
            ExprP::Minus(operand) => write!(f, "-{}", operand.node),
            ExprP::Plus(operand) => write!(f, "+{}", operand.node),
            ExprP::BitNot(operand) => write!(f, "~{}", operand.node),
            ExprP::Op(left, op, right) => write!(f, "({}{op}{})", left.node, right.node),
            ExprP::If(parts) => write!(f, "({} if {} else {})", parts.1.node, parts.0.node, parts.2.node),
            ExprP::ListComprehension(element, first, rest) => {
                write!(f, "[{}{first}", element.node)?;
                rest.iter().try_for_each(|clause| clause.fmt(f))?;
                f.write_char(']')
            }
            ExprP::DictComprehension(entry, first, rest) => {
                write!(f, "{{{}: {}{first}", entry.0.node, entry.1.node)?;
                rest.iter().try_for_each(|clause| clause.fmt(f))?;
                f.write_char('}')
            }
            ExprP::FString(text) => text.node.fmt(f),
        }
    }
}

/// Writes a slice as the original does, with `]` before the ends.
fn slice<P: AstPayload>(
    f: &mut Formatter<'_>,
    array: &AstExprP<P>,
    [start, stop, step]: [&Option<Box<AstExprP<P>>>; 3],
) -> fmt::Result {
    write!(f, "{}[]", array.node)?;
    if let Some(start) = start {
        start.node.fmt(f)?;
    }
    f.write_char(':')?;
    if let Some(stop) = stop {
        stop.node.fmt(f)?;
    }
    step.iter().try_for_each(|step| write!(f, ":{}", step.node))
}

impl<P: AstPayload> Display for LambdaP<P> {
    fn fmt(&self, f: &mut Formatter<'_>) -> fmt::Result {
        f.write_str("(lambda ")?;
        nodes(f, &self.params)?;
        write!(f, ": {})", self.body.node)
    }
}

impl<P: AstPayload> Display for FStringP<P> {
    /// A call of `format` on the text, which is not quoted.
    fn fmt(&self, f: &mut Formatter<'_>) -> fmt::Result {
        write!(f, "{}.format(", self.format.node)?;
        nodes(f, &self.expressions)?;
        f.write_char(')')
    }
}

impl<P: AstPayload> Display for TypeExprP<P> {
    fn fmt(&self, f: &mut Formatter<'_>) -> fmt::Result {
        self.expr.node.fmt(f)
    }
}

impl<P: AstPayload> Display for AssignTargetP<P> {
    fn fmt(&self, f: &mut Formatter<'_>) -> fmt::Result {
        match self {
            AssignTargetP::Tuple(items) => tuple(f, items),
            AssignTargetP::Index(parts) => write!(f, "{}[{}]", parts.0.node, parts.1.node),
            AssignTargetP::Dot(object, name) => write!(f, "{}.{}", object.node, name.node),
            AssignTargetP::Identifier(name) => name.node.fmt(f),
        }
    }
}

impl<P: AstPayload> Display for AssignIdentP<P> {
    fn fmt(&self, f: &mut Formatter<'_>) -> fmt::Result {
        f.write_str(&self.ident)
    }
}

impl<P: AstPayload> Display for IdentP<P> {
    fn fmt(&self, f: &mut Formatter<'_>) -> fmt::Result {
        f.write_str(&self.ident)
    }
}

impl<P: AstPayload> Display for ArgumentP<P> {
    fn fmt(&self, f: &mut Formatter<'_>) -> fmt::Result {
        match self {
            ArgumentP::Positional(value) => value.node.fmt(f),
            ArgumentP::Named(name, value) => write!(f, "{} = {}", name.node, value.node),
            ArgumentP::Args(value) => write!(f, "*{}", value.node),
            ArgumentP::KwArgs(value) => write!(f, "**{}", value.node),
        }
    }
}

impl<P: AstPayload> Display for ParameterP<P> {
    fn fmt(&self, f: &mut Formatter<'_>) -> fmt::Result {
        f.write_str(match self {
            ParameterP::Slash => "/",
            ParameterP::Normal(..) => "",
            ParameterP::NoArgs | ParameterP::Args(..) => "*",
            ParameterP::KwArgs(..) => "**",
        })?;
        let (name, ty, default) = self.split();
        name.iter().try_for_each(|name| name.node.fmt(f))?;
        ty.iter().try_for_each(|ty| write!(f, ": {}", ty.node))?;
        default.iter().try_for_each(|default| write!(f, " = {}", default.node))
    }
}

impl<P: AstPayload> Display for ForClauseP<P> {
    fn fmt(&self, f: &mut Formatter<'_>) -> fmt::Result {
        write!(f, " for {} in {}", self.var.node, self.over.node)
    }
}

impl<P: AstPayload> Display for ClauseP<P> {
    fn fmt(&self, f: &mut Formatter<'_>) -> fmt::Result {
        match self {
            ClauseP::For(clause) => clause.fmt(f),
            ClauseP::If(condition) => write!(f, " if {}", condition.node),
        }
    }
}

impl<P: AstPayload> Display for StmtP<P> {
    /// The statement with a newline at its end.
    fn fmt(&self, f: &mut Formatter<'_>) -> fmt::Result {
        self.lines(f, 0)
    }
}

impl<P: AstPayload> StmtP<P> {
    /// Writes the lines of the statement in so many blocks.
    fn lines(&self, f: &mut Formatter<'_>, blocks: usize) -> fmt::Result {
        if let StmtP::Statements(parts) = self {
            return parts.iter().try_for_each(|part| part.lines(f, blocks));
        }
        margin(f, blocks)?;
        self.head(f)?;
        f.write_char('\n')?;
        match self {
            StmtP::If(_, then) => then.lines(f, blocks + 1),
            StmtP::IfElse(_, parts) => {
                parts.0.lines(f, blocks + 1)?;
                margin(f, blocks)?;
                f.write_str("else:\n")?;
                parts.1.lines(f, blocks + 1)
            }
            StmtP::For(each) => each.body.lines(f, blocks + 1),
            StmtP::Def(def) => def.body.lines(f, blocks + 1),
            _ => Ok(()),
        }
    }

    /// Writes the first line of the statement.
    fn head(&self, f: &mut Formatter<'_>) -> fmt::Result {
        match self {
            StmtP::Break => f.write_str("break"),
            StmtP::Continue => f.write_str("continue"),
            StmtP::Pass => f.write_str("pass"),
            StmtP::Return(None) => f.write_str("return"),
            StmtP::Return(Some(value)) => write!(f, "return {}", value.node),
            StmtP::Expression(value) => value.node.fmt(f),
            StmtP::Assign(assign) => assign.fmt(f),
            StmtP::AssignModify(target, op, value) => write!(f, "{}{op}{}", target.node, value.node),
            StmtP::Statements(_) => Ok(()),
            StmtP::If(condition, _) | StmtP::IfElse(condition, _) => write!(f, "if {}:", condition.node),
            StmtP::For(each) => write!(f, "for {} in {}:", each.var.node, each.over.node),
            StmtP::Def(def) => {
                write!(f, "def {}(", def.name.node)?;
                nodes(f, &def.params)?;
                f.write_char(')')?;
                def.return_type.iter().try_for_each(|ty| write!(f, " -> {}", ty.node))?;
                f.write_char(':')
            }
            StmtP::Load(load) => load.fmt(f),
        }
    }
}

fn margin(f: &mut Formatter<'_>, blocks: usize) -> fmt::Result {
    (0..blocks).try_for_each(|_| f.write_str("  "))
}

impl<P: AstPayload> Display for AssignP<P> {
    fn fmt(&self, f: &mut Formatter<'_>) -> fmt::Result {
        write!(f, "{} ", self.lhs.node)?;
        self.ty.iter().try_for_each(|ty| write!(f, ": {} ", ty.node))?;
        write!(f, "= {}", self.rhs.node)
    }
}

impl<P: AstPayload> Display for LoadP<P> {
    fn fmt(&self, f: &mut Formatter<'_>) -> fmt::Result {
        f.write_str("load(")?;
        quoted(f, &self.module)?;
        f.write_str(", ")?;
        list(f, &self.args, |f, arg| {
            write!(f, "{} = ", arg.local.node)?;
            quoted(f, &arg.their)
        })?;
        f.write_char(')')
    }
}
