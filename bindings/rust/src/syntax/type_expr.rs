//! What a type annotation means.
use crate::codemap::{CodeMap, Span, Spanned};
use crate::error::{Error, ErrorKind, Fault};
use crate::syntax::ast::{AstExprP, AstIdentP, AstLiteral, AstPayload, BinOp, ExprP};

/// Whether a string that is a type means any type: an empty one, and one that begins with `_`.
pub fn type_str_literal_is_wildcard(s: &str) -> bool {
    s.is_empty() || s.starts_with('_')
}

/// `a.b.c`, as a type.
#[derive(Debug)]
pub struct TypePathP<'a, P: AstPayload> {
    /// The first name.
    pub first: &'a AstIdentP<P>,
    /// The names after it.
    pub rem: Vec<Spanned<&'a str>>,
}

/// A type.
#[derive(Debug)]
pub enum TypeExprUnpackP<'a, P: AstPayload> {
    /// `...`
    Ellipsis,
    /// `a.b.c`
    Path(TypePathP<'a, P>),
    /// `list[a]`
    Index(&'a AstIdentP<P>, Box<Spanned<TypeExprUnpackP<'a, P>>>),
    /// `dict[a, b]`
    Index2(Spanned<TypePathP<'a, P>>, Box<Spanned<TypeExprUnpackP<'a, P>>>, Box<Spanned<TypeExprUnpackP<'a, P>>>),
    /// `[a, b]` in the index of an `Index2`
    List(Vec<Spanned<TypeExprUnpackP<'a, P>>>),
    /// `a | b | c`, or `[a, b]` elsewhere. The members of a chain of `|` are in one list.
    Union(Vec<Spanned<TypeExprUnpackP<'a, P>>>),
    /// `(a, b)`
    Tuple(Vec<Spanned<TypeExprUnpackP<'a, P>>>),
}

/// Why an expression is not a type, and where.
type Refused = (String, Span);

/// A type, or why an expression is none.
type Unpacked<'a, P> = Result<Spanned<TypeExprUnpackP<'a, P>>, Refused>;

impl<'a, P: AstPayload> TypeExprUnpackP<'a, P> {
    /// The type that an expression is.
    ///
    /// # Errors
    ///
    /// [`ErrorKind::TypeExpr`]: the first part that is not a type. An annotation that was parsed in a dialect with
    /// types has none.
    pub fn unpack(expr: &'a AstExprP<P>, codemap: &CodeMap) -> Result<Spanned<TypeExprUnpackP<'a, P>>, Error> {
        unpack(expr)
            .map_err(|(message, span)| Fault { kind: ErrorKind::TypeExpr, message, span: Some(span) }.in_file(codemap))
    }
}

fn unpack<P: AstPayload>(expr: &AstExprP<P>) -> Unpacked<'_, P> {
    let node = match &expr.node {
        ExprP::Literal(AstLiteral::Ellipsis) => TypeExprUnpackP::Ellipsis,
        ExprP::Identifier(_) | ExprP::Dot(..) => TypeExprUnpackP::Path(path(expr)?.node),
        ExprP::Index(parts) => {
            let ExprP::Identifier(name) = &parts.0.node else { return Err(refused(expr)) };
            TypeExprUnpackP::Index(name, Box::new(unpack(&parts.1)?))
        }
        ExprP::Index2(parts) => {
            let path = path(&parts.0)?;
            TypeExprUnpackP::Index2(path, Box::new(argument(&parts.1)?), Box::new(argument(&parts.2)?))
        }
        ExprP::Tuple(items) => TypeExprUnpackP::Tuple(items.iter().map(unpack).collect::<Result<_, _>>()?),
        ExprP::List(items) if items.len() > 1 => {
            TypeExprUnpackP::Union(items.iter().map(unpack).collect::<Result<_, _>>()?)
        }
        ExprP::Op(left, BinOp::BitOr, right) => {
            let mut members = Vec::new();
            add_members(left, &mut members)?;
            add_members(right, &mut members)?;
            TypeExprUnpackP::Union(members)
        }
        _ => return Err(refused(expr)),
    };
    Ok(Spanned { node, span: expr.span })
}

/// Adds the members of a chain of `|`, or the one type that it is.
fn add_members<'a, P: AstPayload>(
    expr: &'a AstExprP<P>,
    members: &mut Vec<Spanned<TypeExprUnpackP<'a, P>>>,
) -> Result<(), Refused> {
    if let ExprP::Op(left, BinOp::BitOr, right) = &expr.node {
        add_members(left, members)?;
        return add_members(right, members);
    }
    members.push(unpack(expr)?);
    Ok(())
}

/// An index of an `Index2`, in which a list is a list of types.
fn argument<P: AstPayload>(expr: &AstExprP<P>) -> Unpacked<'_, P> {
    let ExprP::List(items) = &expr.node else { return unpack(expr) };
    let items = items.iter().map(argument).collect::<Result<_, _>>()?;
    Ok(Spanned { node: TypeExprUnpackP::List(items), span: expr.span })
}

/// The names of `a.b.c`.
fn path<P: AstPayload>(expr: &AstExprP<P>) -> Result<Spanned<TypePathP<'_, P>>, Refused> {
    let mut rem = Vec::new();
    let mut first = expr;
    while let ExprP::Dot(object, name) = &first.node {
        rem.push(name.as_ref().map(String::as_str));
        first = object;
    }
    rem.reverse();
    let ExprP::Identifier(name) = &first.node else {
        let message = match rem.as_slice() {
            [] => "Expecting path like `a.b.c`",
            _ => "Only dot expression of form `ident.ident` is allowed in type expression",
        };
        return Err((message.to_owned(), first.span));
    };
    if let Some((Spanned { node: "type", .. }, before)) = rem.split_last() {
        let path: String = before.iter().fold(name.ident.clone(), |path, part| path + "." + part.node);
        let message = format!("`{path}.type` is not allowed in type expression, use `{path}` instead");
        return Err((message, first.span));
    }
    Ok(Spanned { node: TypePathP { first: name, rem }, span: expr.span })
}

/// Why an expression of this form is not a type.
fn refused<P: AstPayload>(expr: &AstExprP<P>) -> Refused {
    let form = match &expr.node {
        ExprP::List(items) if items.is_empty() => {
            return ("Empty list is not allowed in type expression".to_owned(), expr.span);
        }
        ExprP::List(_) => "list of 1 element",
        ExprP::Index(_) => "array indirection where array is not an identifier",
        ExprP::Index2(_) => "array indirection",
        ExprP::Op(..) => "bin op except `|`",
        ExprP::Tuple(_) => "tuple",
        ExprP::Dot(..) => "dot",
        ExprP::Identifier(_) => "identifier",
        ExprP::Call(..) => "call",
        ExprP::Slice(..) => "slice",
        ExprP::Lambda(_) => "lambda",
        ExprP::Not(_) => "not",
        ExprP::Minus(_) => "minus",
        ExprP::Plus(_) => "plus",
        ExprP::BitNot(_) => "bit not",
        ExprP::If(_) => "if",
        ExprP::Dict(_) => "dict",
        ExprP::ListComprehension(..) => "list comprehension",
        ExprP::DictComprehension(..) => "dict comprehension",
        ExprP::FString(_) => "f-string",
        ExprP::Literal(AstLiteral::Int(_)) => "int",
        ExprP::Literal(AstLiteral::Float(_)) => "float",
        ExprP::Literal(AstLiteral::String(_)) => "string literal",
        ExprP::Literal(AstLiteral::Bytes(_)) => "bytes literal",
        ExprP::Literal(AstLiteral::Ellipsis) => "ellipsis",
    };
    (format!("{form} expression is not allowed in type expression"), expr.span)
}
