//! A tree as JSON, by docs/JSON.md: the way back of what the crate reads.
use starlark_syntax::Error;
use starlark_syntax::codemap::{Pos, ResolvedPos, Span, Spanned};
use starlark_syntax::syntax::AstModule;
use starlark_syntax::syntax::ast::*;

/// The JSON of a module. A float has the text of its span.
pub fn module(module: &AstModule) -> String {
    let comments = array(module.comments(), |comment| span(*comment));
    let mut statement = stmt(module.statement());
    let floats = statement.match_indices(FLOAT).map(|(at, _)| at).collect::<Vec<_>>();
    for at in floats.into_iter().rev() {
        let end = at + statement[at..].find('}').expect("the end of the literal");
        let source = module.codemap().source_span(span_before(&statement[..at]));
        statement.replace_range(at + FLOAT.len()..end, &text(source));
    }
    format!(r#"{{"version":1,"file":"input","comments":{comments},"statement":{statement}}}"#)
}

/// What the JSON of a float literal has before its value.
const FLOAT: &str = r#""literal":"Float","value":"#;

/// The last span in a JSON.
fn span_before(json: &str) -> Span {
    let (_, ends) = json.rsplit_once('[').expect("a span");
    let (begin, end) = ends.trim_end_matches(['"', ',', ']']).split_once(',').expect("two numbers");
    let pos = |digits: &str| Pos::new(digits.parse().expect("a number"));
    Span::new(pos(begin), pos(end))
}

pub fn error(error: &Error) -> String {
    let kind = error.kind();
    let message = text(error.message());
    let place = match error.span() {
        Some(place) => {
            let resolved = place.resolve_span();
            let (at, begin, end) = (span(place.span), position(resolved.begin), position(resolved.end));
            format!(r#""{}","span":{at},"begin":{begin},"end":{end}"#, place.filename())
        }
        None => "null".to_owned(),
    };
    format!(r#"{{"version":1,"error":"{kind:?}","message":{message},"file":{place}}}"#)
}

fn position(at: ResolvedPos) -> String {
    format!(r#"{{"line":{},"column":{}}}"#, at.line, at.column)
}

fn span(span: Span) -> String {
    format!("[{},{}]", span.begin().get(), span.end().get())
}

fn text(text: &str) -> String {
    let mut json = String::from('"');
    for c in text.chars() {
        match c {
            '"' | '\\' => json.extend(['\\', c]),
            '\u{8}' => json.push_str("\\b"),
            '\u{c}' => json.push_str("\\f"),
            '\n' => json.push_str("\\n"),
            '\r' => json.push_str("\\r"),
            '\t' => json.push_str("\\t"),
            c if c < ' ' => json.push_str(&format!("\\u{:04x}", u32::from(c))),
            c => json.push(c),
        }
    }
    json + "\""
}

fn array<T>(items: &[T], item: impl Fn(&T) -> String) -> String {
    format!("[{}]", items.iter().map(item).collect::<Vec<_>>().join(","))
}

fn optional<T>(value: Option<&T>, item: impl Fn(&T) -> String) -> String {
    value.map_or("null".to_owned(), item)
}

/// A node of a family: the name of its form, and its other fields.
fn node(family: &str, at: Span, (form, fields): (&str, Vec<(&str, String)>)) -> String {
    let fields: String = fields.iter().map(|(key, value)| format!(r#","{key}":{value}"#)).collect();
    format!(r#"{{"{family}":"{form}","span":{}{fields}}}"#, span(at))
}

fn named(at: Span, name: &str) -> String {
    format!(r#"{{"span":{},"text":{}}}"#, span(at), text(name))
}

fn string(string: &AstString) -> String {
    named(string.span, &string.node)
}

fn assigned_name(name: &AstAssignIdent) -> String {
    named(name.span, &name.node.ident)
}

fn type_expr(ty: &AstTypeExpr) -> String {
    format!(r#"{{"span":{},"expr":{}}}"#, span(ty.span), expr(&ty.node.expr))
}

fn expr(e: &AstExpr) -> String {
    node("expr", e.span, form_of_expr(e))
}

fn form_of_expr(e: &AstExpr) -> (&'static str, Vec<(&'static str, String)>) {
    match &e.node {
        Expr::Tuple(items) => ("Tuple", vec![("items", array(items, expr))]),
        Expr::Dot(object, name) => ("Dot", vec![("object", expr(object)), ("attribute", string(name))]),
        Expr::Call(callee, args) => ("Call", vec![("callee", expr(callee)), ("args", array(&args.args, argument))]),
        Expr::Index(parts) => ("Index", vec![("array", expr(&parts.0)), ("index", expr(&parts.1))]),
        Expr::Index2(parts) => {
            ("Index2", vec![("array", expr(&parts.0)), ("index0", expr(&parts.1)), ("index1", expr(&parts.2))])
        }
        Expr::Slice(array, start, stop, step) => {
            let ends = [("start", start), ("stop", stop), ("step", step)];
            let ends = ends.into_iter().map(|(key, end)| (key, optional(end.as_deref(), expr)));
            ("Slice", std::iter::once(("array", expr(array))).chain(ends).collect())
        }
        Expr::Identifier(name) => {
            assert_eq!(name.span, e.span);
            ("Identifier", vec![("name", text(&name.node.ident))])
        }
        Expr::Lambda(l) => ("Lambda", vec![("params", array(&l.params, parameter)), ("body", expr(&l.body))]),
        Expr::Literal(value) => ("Literal", literal(value)),
        Expr::Not(operand) => ("Not", vec![("operand", expr(operand))]),
        Expr::Minus(operand) => ("Minus", vec![("operand", expr(operand))]),
        Expr::Plus(operand) => ("Plus", vec![("operand", expr(operand))]),
        Expr::BitNot(operand) => ("BitNot", vec![("operand", expr(operand))]),
        Expr::Op(left, op, right) => {
            ("Op", vec![("op", format!("\"{op:?}\"")), ("left", expr(left)), ("right", expr(right))])
        }
        Expr::If(parts) => {
            ("If", vec![("condition", expr(&parts.0)), ("then", expr(&parts.1)), ("else", expr(&parts.2))])
        }
        Expr::List(items) => ("List", vec![("items", array(items, expr))]),
        Expr::Dict(entries) => {
            ("Dict", vec![("entries", array(entries, |(key, value)| format!("[{},{}]", expr(key), expr(value))))])
        }
        Expr::ListComprehension(element, first, rest) => {
            ("ListComprehension", vec![("element", expr(element)), ("clauses", clauses(first, rest))])
        }
        Expr::DictComprehension(entry, first, rest) => (
            "DictComprehension",
            vec![("key", expr(&entry.0)), ("value", expr(&entry.1)), ("clauses", clauses(first, rest))],
        ),
        Expr::FString(f) => {
            assert_eq!(f.span, e.span);
            ("FString", vec![("format", string(&f.node.format)), ("expressions", array(&f.node.expressions, expr))])
        }
    }
}

fn literal(literal: &AstLiteral) -> Vec<(&'static str, String)> {
    let (kind, value) = match literal {
        AstLiteral::Int(Spanned { node: TokenInt::I32(value), .. }) => ("Int", Some(value.to_string())),
        AstLiteral::Int(Spanned { node: TokenInt::BigInt(digits), .. }) => ("BigInt", Some(text(digits))),
        AstLiteral::Float(value) => ("Float", Some(value.node.to_string())),
        AstLiteral::String(value) => ("String", Some(text(&value.node))),
        AstLiteral::Bytes(value) => ("Bytes", Some(array(&value.node, u8::to_string))),
        AstLiteral::Ellipsis => ("Ellipsis", None),
    };
    let value = value.map(|value| ("value", value));
    std::iter::once(("literal", format!("\"{kind}\""))).chain(value).collect()
}

fn clauses(first: &ForClause, rest: &[Clause]) -> String {
    let rest = rest.iter().map(|clause| match clause {
        Clause::For(clause) => for_clause(clause),
        Clause::If(condition) => format!(r#"{{"clause":"If","condition":{}}}"#, expr(condition)),
    });
    format!("[{}]", std::iter::once(for_clause(first)).chain(rest).collect::<Vec<_>>().join(","))
}

fn for_clause(clause: &ForClause) -> String {
    format!(r#"{{"clause":"For","var":{},"over":{}}}"#, target(&clause.var), expr(&clause.over))
}

fn argument(a: &AstArgument) -> String {
    let form = match &a.node {
        Argument::Positional(value) => ("Positional", vec![("value", expr(value))]),
        Argument::Named(name, value) => ("Named", vec![("name", string(name)), ("value", expr(value))]),
        Argument::Args(value) => ("Args", vec![("value", expr(value))]),
        Argument::KwArgs(value) => ("KwArgs", vec![("value", expr(value))]),
    };
    node("argument", a.span, form)
}

fn parameter(p: &AstParameter) -> String {
    let named = |name, ty: &Option<Box<AstTypeExpr>>| {
        vec![("name", assigned_name(name)), ("type", optional(ty.as_deref(), type_expr))]
    };
    let form = match &p.node {
        Parameter::Slash => ("Slash", vec![]),
        Parameter::NoArgs => ("NoArgs", vec![]),
        Parameter::Normal(name, ty, default) => {
            let mut fields = named(name, ty);
            fields.push(("default", optional(default.as_deref(), expr)));
            ("Normal", fields)
        }
        Parameter::Args(name, ty) => ("Args", named(name, ty)),
        Parameter::KwArgs(name, ty) => ("KwArgs", named(name, ty)),
    };
    node("parameter", p.span, form)
}

fn target(t: &AstAssignTarget) -> String {
    let form = match &t.node {
        AssignTarget::Tuple(items) => ("Tuple", vec![("items", array(items, target))]),
        AssignTarget::Index(parts) => ("Index", vec![("array", expr(&parts.0)), ("index", expr(&parts.1))]),
        AssignTarget::Dot(object, name) => ("Dot", vec![("object", expr(object)), ("attribute", string(name))]),
        AssignTarget::Identifier(name) => {
            assert_eq!(name.span, t.span);
            ("Identifier", vec![("name", text(&name.node.ident))])
        }
    };
    node("target", t.span, form)
}

fn stmt(s: &AstStmt) -> String {
    let form = match &s.node {
        Stmt::Break => ("Break", vec![]),
        Stmt::Continue => ("Continue", vec![]),
        Stmt::Pass => ("Pass", vec![]),
        Stmt::Return(value) => ("Return", vec![("value", optional(value.as_ref(), expr))]),
        Stmt::Expression(value) => ("Expression", vec![("value", expr(value))]),
        Stmt::Assign(a) => (
            "Assign",
            vec![("lhs", target(&a.lhs)), ("type", optional(a.ty.as_ref(), type_expr)), ("rhs", expr(&a.rhs))],
        ),
        Stmt::AssignModify(lhs, op, rhs) => {
            ("AssignModify", vec![("lhs", target(lhs)), ("op", format!("\"{op:?}\"")), ("rhs", expr(rhs))])
        }
        Stmt::Statements(parts) => ("Statements", vec![("statements", array(parts, stmt))]),
        Stmt::If(condition, then) => ("If", vec![("condition", expr(condition)), ("then", stmt(then))]),
        Stmt::IfElse(condition, parts) => {
            ("IfElse", vec![("condition", expr(condition)), ("then", stmt(&parts.0)), ("else", stmt(&parts.1))])
        }
        Stmt::For(f) => ("For", vec![("var", target(&f.var)), ("over", expr(&f.over)), ("body", stmt(&f.body))]),
        Stmt::Def(d) => {
            let name = ("name", assigned_name(&d.name));
            let params = ("params", array(&d.params, parameter));
            let return_type = ("return_type", optional(d.return_type.as_deref(), type_expr));
            ("Def", vec![name, params, return_type, ("body", stmt(&d.body))])
        }
        Stmt::Load(l) => ("Load", vec![("module", string(&l.module)), ("args", array(&l.args, load_arg))]),
    };
    node("stmt", s.span, form)
}

fn load_arg(arg: &LoadArgP<AstNoPayload>) -> String {
    let (local, their) = (assigned_name(&arg.local), string(&arg.their));
    let comma = optional(arg.comma.as_ref(), |comma| span(comma.span));
    format!(r#"{{"local":{local},"their":{their},"comma":{comma}}}"#)
}
