//! The tree of a text.
//!
//! Each type of a node is generic over a family of payloads ([`AstPayload`]): data that a tool keeps on names, loads,
//! functions and types. The parser's trees have none ([`AstNoPayload`]); the names without `P` are those types.
use crate::codemap::{Pos, Span, Spanned};
use std::fmt::Debug;

pub use crate::lexer::TokenInt;

/// A family of payloads: the data that the nodes of a tree carry.
pub trait AstPayload: Debug {
    /// What a load carries.
    type LoadPayload: Debug + Clone;
    /// What a name that is read carries.
    type IdentPayload: Debug + Clone;
    /// What a name that is bound carries.
    type IdentAssignPayload: Debug + Clone;
    /// What a function or a lambda carries.
    type DefPayload: Debug + Clone;
    /// What a type annotation carries.
    type TypeExprPayload: Debug + Clone;
}

/// No payloads: each is `()`.
#[derive(Clone, Copy, Debug, PartialEq, Eq)]
pub struct AstNoPayload;

impl AstPayload for AstNoPayload {
    type LoadPayload = ();
    type IdentPayload = ();
    type IdentAssignPayload = ();
    type DefPayload = ();
    type TypeExprPayload = ();
}

/// An expression, without payload.
pub type Expr = ExprP<AstNoPayload>;
/// A type annotation, without payload.
pub type TypeExpr = TypeExprP<AstNoPayload>;
/// What is assigned to, without payload.
pub type AssignTarget = AssignTargetP<AstNoPayload>;
/// A name that is bound, without payload.
pub type AssignIdent = AssignIdentP<AstNoPayload>;
/// A name that is read, without payload.
pub type Ident = IdentP<AstNoPayload>;
/// A clause of a comprehension, without payload.
pub type Clause = ClauseP<AstNoPayload>;
/// A `for` clause of a comprehension, without payload.
pub type ForClause = ForClauseP<AstNoPayload>;
/// An argument of a call, without payload.
pub type Argument = ArgumentP<AstNoPayload>;
/// A parameter, without payload.
pub type Parameter = ParameterP<AstNoPayload>;
/// A load, without payload.
pub type Load = LoadP<AstNoPayload>;
/// A statement, without payload.
pub type Stmt = StmtP<AstNoPayload>;

/// An expression, and where it is.
pub type AstExprP<P> = Spanned<ExprP<P>>;
/// A type annotation, and where it is.
pub type AstTypeExprP<P> = Spanned<TypeExprP<P>>;
/// What is assigned to, and where it is.
pub type AstAssignTargetP<P> = Spanned<AssignTargetP<P>>;
/// A name that is bound, and where it is.
pub type AstAssignIdentP<P> = Spanned<AssignIdentP<P>>;
/// A name that is read, and where it is.
pub type AstIdentP<P> = Spanned<IdentP<P>>;
/// An argument of a call, and where it is.
pub type AstArgumentP<P> = Spanned<ArgumentP<P>>;
/// A parameter, and where it is.
pub type AstParameterP<P> = Spanned<ParameterP<P>>;
/// A statement, and where it is.
pub type AstStmtP<P> = Spanned<StmtP<P>>;
/// An f-string, and where it is.
pub type AstFStringP<P> = Spanned<FStringP<P>>;

/// An expression, and where it is, without payload.
pub type AstExpr = AstExprP<AstNoPayload>;
/// A type annotation, and where it is, without payload.
pub type AstTypeExpr = AstTypeExprP<AstNoPayload>;
/// What is assigned to, and where it is, without payload.
pub type AstAssignTarget = AstAssignTargetP<AstNoPayload>;
/// A name that is bound, and where it is, without payload.
pub type AstAssignIdent = AstAssignIdentP<AstNoPayload>;
/// A name that is read, and where it is, without payload.
pub type AstIdent = AstIdentP<AstNoPayload>;
/// An argument of a call, and where it is, without payload.
pub type AstArgument = AstArgumentP<AstNoPayload>;
/// A parameter, and where it is, without payload.
pub type AstParameter = AstParameterP<AstNoPayload>;
/// A statement, and where it is, without payload.
pub type AstStmt = AstStmtP<AstNoPayload>;
/// An f-string, and where it is, without payload.
pub type AstFString = AstFStringP<AstNoPayload>;
/// A text, and where it is: the name of an attribute or an argument, or the value of a string literal.
pub type AstString = Spanned<String>;
/// The value of a bytes literal, and where it is.
pub type AstBytes = Spanned<Vec<u8>>;
/// The value of an integer literal, and where it is.
pub type AstInt = Spanned<TokenInt>;
/// The value of a float literal, and where it is. Its source text is that of the span.
pub type AstFloat = Spanned<f64>;

/// Gives a span to a value.
pub trait ToAst: Sized {
    /// The value at the bytes from `begin` to before `end`. An offset over `u32::MAX` counts as that.
    fn ast(self, begin: usize, end: usize) -> Spanned<Self> {
        let pos = |at| Pos::new(u32::try_from(at).unwrap_or(u32::MAX));
        Spanned { node: self, span: Span::new(pos(begin), pos(end)) }
    }
}

impl<T> ToAst for T {}

/// A comma, of which only the place matters.
#[derive(Clone, Copy, Debug, PartialEq, Eq, Hash)]
pub struct Comma;

/// A literal.
#[derive(Clone, Debug)]
pub enum AstLiteral {
    /// `1`
    Int(AstInt),
    /// `1.0`
    Float(AstFloat),
    /// `"a"`
    String(AstString),
    /// `b"a"`
    Bytes(AstBytes),
    /// `...`
    Ellipsis,
}

/// A name that is read.
#[derive(Clone, Debug, PartialEq, Eq, Hash)]
pub struct IdentP<P: AstPayload> {
    /// The name.
    pub ident: String,
    /// What it carries.
    pub payload: P::IdentPayload,
}

/// A name that is bound.
#[derive(Clone, Debug, PartialEq, Eq, Hash)]
pub struct AssignIdentP<P: AstPayload> {
    /// The name.
    pub ident: String,
    /// What it carries.
    pub payload: P::IdentAssignPayload,
}

/// An argument of a call.
#[derive(Clone, Debug)]
pub enum ArgumentP<P: AstPayload> {
    /// `e`
    Positional(AstExprP<P>),
    /// `name = e`
    Named(AstString, AstExprP<P>),
    /// `*e`
    Args(AstExprP<P>),
    /// `**e`
    KwArgs(AstExprP<P>),
}

impl<P: AstPayload> ArgumentP<P> {
    /// The value that is passed.
    pub fn expr(&self) -> &AstExprP<P> {
        let (Self::Positional(value) | Self::Named(_, value) | Self::Args(value) | Self::KwArgs(value)) = self;
        value
    }

    /// The value that is passed, to change it.
    pub fn expr_mut(&mut self) -> &mut AstExprP<P> {
        let (Self::Positional(value) | Self::Named(_, value) | Self::Args(value) | Self::KwArgs(value)) = self;
        value
    }

    /// The name by which the value is passed, if it is by name.
    pub fn name(&self) -> Option<&str> {
        if let Self::Named(name, _) = self { Some(name.as_str()) } else { None }
    }
}

/// A parameter of a function or lambda.
#[derive(Clone, Debug)]
pub enum ParameterP<P: AstPayload> {
    /// `/`: the parameters before it are passed by position only.
    Slash,
    /// A name with its type and its default value.
    Normal(AstAssignIdentP<P>, Option<Box<AstTypeExprP<P>>>, Option<Box<AstExprP<P>>>),
    /// `*`: the parameters after it are passed by name only.
    NoArgs,
    /// `*name`, with its type.
    Args(AstAssignIdentP<P>, Option<Box<AstTypeExprP<P>>>),
    /// `**name`, with its type.
    KwArgs(AstAssignIdentP<P>, Option<Box<AstTypeExprP<P>>>),
}

impl<P: AstPayload> ParameterP<P> {
    /// Its name, if it has one.
    pub fn ident(&self) -> Option<&AstAssignIdentP<P>> {
        self.split().0
    }

    /// Its name, its type and its default value.
    #[allow(clippy::type_complexity)]
    pub fn split(&self) -> (Option<&AstAssignIdentP<P>>, Option<&AstTypeExprP<P>>, Option<&AstExprP<P>>) {
        match self {
            Self::Slash | Self::NoArgs => (None, None, None),
            Self::Normal(name, ty, default) => (Some(name), ty.as_deref(), default.as_deref()),
            Self::Args(name, ty) | Self::KwArgs(name, ty) => (Some(name), ty.as_deref(), None),
        }
    }

    /// Its name, its type and its default value, to change them.
    #[allow(clippy::type_complexity)]
    pub fn split_mut(
        &mut self,
    ) -> (Option<&mut AstAssignIdentP<P>>, Option<&mut AstTypeExprP<P>>, Option<&mut AstExprP<P>>) {
        match self {
            Self::Slash | Self::NoArgs => (None, None, None),
            Self::Normal(name, ty, default) => (Some(name), ty.as_deref_mut(), default.as_deref_mut()),
            Self::Args(name, ty) | Self::KwArgs(name, ty) => (Some(name), ty.as_deref_mut(), None),
        }
    }
}

/// A lambda.
#[derive(Clone, Debug)]
pub struct LambdaP<P: AstPayload> {
    /// Its parameters.
    pub params: Vec<AstParameterP<P>>,
    /// What it returns.
    pub body: Box<AstExprP<P>>,
    /// What it carries.
    pub payload: P::DefPayload,
}

impl<P: AstPayload> LambdaP<P> {
    /// Where its parameters are; without any, where its body is.
    pub fn signature_span(&self) -> Span {
        self.params.iter().map(|param| param.span).reduce(Span::merge).unwrap_or(self.body.span)
    }
}

/// The arguments of a call.
#[derive(Clone, Debug)]
pub struct CallArgsP<P: AstPayload> {
    /// The arguments in order.
    pub args: Vec<AstArgumentP<P>>,
}

/// An operator between two expressions.
#[derive(Clone, Copy, Debug, PartialEq, Eq, Hash)]
pub enum BinOp {
    /// `or`
    Or,
    /// `and`
    And,
    /// `==`
    Equal,
    /// `!=`
    NotEqual,
    /// `<`
    Less,
    /// `>`
    Greater,
    /// `<=`
    LessOrEqual,
    /// `>=`
    GreaterOrEqual,
    /// `in`
    In,
    /// `not in`
    NotIn,
    /// `-`
    Subtract,
    /// `+`
    Add,
    /// `*`
    Multiply,
    /// `%`
    Percent,
    /// `/`
    Divide,
    /// `//`
    FloorDivide,
    /// `&`
    BitAnd,
    /// `|`
    BitOr,
    /// `^`
    BitXor,
    /// `<<`
    LeftShift,
    /// `>>`
    RightShift,
}

/// An operator that changes what is assigned to.
#[derive(Clone, Copy, Debug, PartialEq, Eq, Hash)]
pub enum AssignOp {
    /// `+=`
    Add,
    /// `-=`
    Subtract,
    /// `*=`
    Multiply,
    /// `/=`
    Divide,
    /// `//=`
    FloorDivide,
    /// `%=`
    Percent,
    /// `&=`
    BitAnd,
    /// `|=`
    BitOr,
    /// `^=`
    BitXor,
    /// `<<=`
    LeftShift,
    /// `>>=`
    RightShift,
}

/// An expression.
#[derive(Clone, Debug)]
pub enum ExprP<P: AstPayload> {
    /// `(a, b)`
    Tuple(Vec<AstExprP<P>>),
    /// `a.name`
    Dot(Box<AstExprP<P>>, AstString),
    /// `f(a)`
    Call(Box<AstExprP<P>>, CallArgsP<P>),
    /// `a[i]`
    Index(Box<(AstExprP<P>, AstExprP<P>)>),
    /// `a[i, j]`
    Index2(Box<(AstExprP<P>, AstExprP<P>, AstExprP<P>)>),
    /// `a[start:stop:step]`
    Slice(Box<AstExprP<P>>, Option<Box<AstExprP<P>>>, Option<Box<AstExprP<P>>>, Option<Box<AstExprP<P>>>),
    /// `name`
    Identifier(AstIdentP<P>),
    /// `lambda x: e`
    Lambda(LambdaP<P>),
    /// `1`, `"a"` and so on.
    Literal(AstLiteral),
    /// `not e`
    Not(Box<AstExprP<P>>),
    /// `-e`
    Minus(Box<AstExprP<P>>),
    /// `+e`
    Plus(Box<AstExprP<P>>),
    /// `~e`
    BitNot(Box<AstExprP<P>>),
    /// `a + b` and so on.
    Op(Box<AstExprP<P>>, BinOp, Box<AstExprP<P>>),
    /// `then if condition else otherwise`: the condition, the value if it holds, and the other value.
    If(Box<(AstExprP<P>, AstExprP<P>, AstExprP<P>)>),
    /// `[a, b]`
    List(Vec<AstExprP<P>>),
    /// `{key: value}`: each key with its value.
    Dict(Vec<(AstExprP<P>, AstExprP<P>)>),
    /// `[e for x in xs if c]`
    ListComprehension(Box<AstExprP<P>>, Box<ForClauseP<P>>, Vec<ClauseP<P>>),
    /// `{key: value for x in xs if c}`
    DictComprehension(Box<(AstExprP<P>, AstExprP<P>)>, Box<ForClauseP<P>>, Vec<ClauseP<P>>),
    /// `f"{a}"`
    FString(AstFStringP<P>),
}

/// A type annotation: an expression.
#[derive(Clone, Debug)]
pub struct TypeExprP<P: AstPayload> {
    /// The expression.
    pub expr: AstExprP<P>,
    /// What it carries.
    pub payload: P::TypeExprPayload,
}

/// What is assigned to.
#[derive(Clone, Debug)]
pub enum AssignTargetP<P: AstPayload> {
    /// `(a, b)` or `[a, b]`
    Tuple(Vec<AstAssignTargetP<P>>),
    /// `a[i]`
    Index(Box<(AstExprP<P>, AstExprP<P>)>),
    /// `a.name`
    Dot(Box<AstExprP<P>>, AstString),
    /// `name`
    Identifier(AstAssignIdentP<P>),
}

/// `lhs: ty = rhs`
#[derive(Clone, Debug)]
pub struct AssignP<P: AstPayload> {
    /// What is assigned to.
    pub lhs: AstAssignTargetP<P>,
    /// Its type, if it is stated.
    pub ty: Option<AstTypeExprP<P>>,
    /// The value.
    pub rhs: AstExprP<P>,
}

/// A name that a load brings in.
#[derive(Clone, Debug)]
pub struct LoadArgP<P: AstPayload> {
    /// What it is called here.
    pub local: AstAssignIdentP<P>,
    /// What it is called in the module that it comes from.
    pub their: AstString,
    /// The comma after it, if there is one.
    pub comma: Option<Spanned<Comma>>,
}

impl<P: AstPayload> LoadArgP<P> {
    /// Where the two names are. If `"a"` is both, where that is.
    pub fn span(&self) -> Span {
        self.local.span.merge(self.their.span)
    }

    /// Where the two names and the comma after them are.
    pub fn span_with_trailing_comma(&self) -> Span {
        self.comma.iter().fold(self.span(), |span, comma| span.merge(comma.span))
    }
}

/// `load("module", "a", b = "c")`
#[derive(Clone, Debug)]
pub struct LoadP<P: AstPayload> {
    /// The module.
    pub module: AstString,
    /// The names that it brings in, in order.
    pub args: Vec<LoadArgP<P>>,
    /// What it carries.
    pub payload: P::LoadPayload,
}

/// `for var in over`, in a comprehension.
#[derive(Clone, Debug)]
pub struct ForClauseP<P: AstPayload> {
    /// What is bound.
    pub var: AstAssignTargetP<P>,
    /// What it is taken from.
    pub over: AstExprP<P>,
}

/// A clause of a comprehension, after the first.
#[derive(Clone, Debug)]
pub enum ClauseP<P: AstPayload> {
    /// `for var in over`
    For(ForClauseP<P>),
    /// `if condition`
    If(AstExprP<P>),
}

/// Whether other modules may load a name.
#[derive(Clone, Copy, Debug, PartialEq, Eq, Hash)]
pub enum Visibility {
    /// They may not.
    Private,
    /// They may.
    Public,
}

/// `def name(params) -> return_type: body`
#[derive(Clone, Debug)]
pub struct DefP<P: AstPayload> {
    /// Its name.
    pub name: AstAssignIdentP<P>,
    /// Its parameters.
    pub params: Vec<AstParameterP<P>>,
    /// The return type, if there is an annotation.
    pub return_type: Option<Box<AstTypeExprP<P>>>,
    /// What it does.
    pub body: Box<AstStmtP<P>>,
    /// What it carries.
    pub payload: P::DefPayload,
}

impl<P: AstPayload> DefP<P> {
    /// Where its name, its parameters and its return type are.
    pub fn signature_span(&self) -> Span {
        let params = self.params.iter().map(|param| param.span);
        params.chain(self.return_type.iter().map(|ty| ty.span)).fold(self.name.span, Span::merge)
    }
}

/// `for var in over: body`
#[derive(Clone, Debug)]
pub struct ForP<P: AstPayload> {
    /// What is bound.
    pub var: AstAssignTargetP<P>,
    /// What it is taken from.
    pub over: AstExprP<P>,
    /// What is done with it.
    pub body: Box<AstStmtP<P>>,
}

/// An f-string.
#[derive(Clone, Debug)]
pub struct FStringP<P: AstPayload> {
    /// Its text, with a `{}` for each expression.
    pub format: AstString,
    /// The expressions in order.
    pub expressions: Vec<AstExprP<P>>,
}

/// A statement.
#[derive(Clone, Debug)]
pub enum StmtP<P: AstPayload> {
    /// `break`
    Break,
    /// `continue`
    Continue,
    /// `pass`
    Pass,
    /// `return e`
    Return(Option<AstExprP<P>>),
    /// `e`
    Expression(AstExprP<P>),
    /// `x = e`
    Assign(AssignP<P>),
    /// `x += e` and so on.
    AssignModify(AstAssignTargetP<P>, AssignOp, Box<AstExprP<P>>),
    /// Statements one after another: a text's, or a block's.
    Statements(Vec<AstStmtP<P>>),
    /// `if condition: then`
    If(AstExprP<P>, Box<AstStmtP<P>>),
    /// `if condition: then`, and `else: otherwise`. An `elif` is an `if` alone in an `else`.
    IfElse(AstExprP<P>, Box<(AstStmtP<P>, AstStmtP<P>)>),
    /// `for x in xs: body`
    For(ForP<P>),
    /// `def f(x): body`
    Def(DefP<P>),
    /// `load("m", "a")`
    Load(LoadP<P>),
}
