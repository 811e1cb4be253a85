//! Visitors of a tree.
//!
//! A visitor calls a function with the nodes that are directly in a node, in the order of the original. It goes no
//! deeper unless its documentation says so: the function calls the visitor again for what is inside.
//! [`parts`](crate::syntax::parts) has all that is in a node, at any depth, without recursion.
use crate::syntax::ast::*;

/// A statement or an expression.
#[derive(Debug)]
pub enum Visit<'a, P: AstPayload> {
    /// A statement.
    Stmt(&'a AstStmtP<P>),
    /// An expression.
    Expr(&'a AstExprP<P>),
}

/// A statement or an expression, to change it.
#[derive(Debug)]
pub enum VisitMut<'a, P: AstPayload> {
    /// A statement.
    Stmt(&'a mut AstStmtP<P>),
    /// An expression.
    Expr(&'a mut AstExprP<P>),
}

impl<P: AstPayload> Clone for Visit<'_, P> {
    fn clone(&self) -> Self {
        *self
    }
}

impl<P: AstPayload> Copy for Visit<'_, P> {}

impl<'a, P: AstPayload> Visit<'a, P> {
    /// Calls `f` with each statement and expression directly in this one.
    pub fn visit_children(&self, mut f: impl FnMut(Visit<'a, P>)) {
        match self {
            Visit::Stmt(stmt) => stmt.visit_children(f),
            Visit::Expr(expr) => expr.visit_expr(|child| f(Visit::Expr(child))),
        }
    }

    /// Calls `f` with each statement and expression directly in this one, up to the first that fails.
    pub fn visit_children_err<E>(&self, f: impl FnMut(Visit<'a, P>) -> Result<(), E>) -> Result<(), E> {
        until_err(f, |f| self.visit_children(f))
    }
}

/// Lets a visitor call `f` up to the first call that fails.
fn until_err<T, E>(mut f: impl FnMut(T) -> Result<(), E>, visit: impl FnOnce(&mut dyn FnMut(T))) -> Result<(), E> {
    let mut done = Ok(());
    visit(&mut |node| {
        if done.is_ok() {
            done = f(node);
        }
    });
    done
}

/// The visitors of one kind of reference: of `&`, or of `& mut`.
macro_rules! visitors {
    ($visit:ident, $visit_expr:ident, $visit_children:ident, $visit_lvalue:ident, $visit_target:ident,
     $iter:ident, $split:ident, $expr:ident $(, $mut:tt)?) => {
        impl<P: AstPayload> ExprP<P> {
            /// Calls `f` with each expression directly in this one. Of a comprehension the clauses come first.
            pub fn $visit_expr<'a>(&'a $($mut)? self, mut f: impl FnMut(&'a $($mut)? AstExprP<P>)) {
                match self {
                    ExprP::Identifier(_) | ExprP::Literal(_) => {}
                    ExprP::Tuple(items) | ExprP::List(items) => items.$iter().for_each(f),
                    ExprP::FString(text) => text.node.expressions.$iter().for_each(f),
                    ExprP::Dot(operand, _)
                    | ExprP::Not(operand)
                    | ExprP::Minus(operand)
                    | ExprP::Plus(operand)
                    | ExprP::BitNot(operand) => f(operand),
                    ExprP::Call(callee, args) => {
                        f(callee);
                        args.args.$iter().for_each(|arg| f((& $($mut)? arg.node).$expr()));
                    }
                    ExprP::Index(parts) => {
                        let (array, index) = & $($mut)? **parts;
                        [array, index].into_iter().for_each(f);
                    }
                    ExprP::Index2(parts) | ExprP::If(parts) => {
                        let (first, second, third) = & $($mut)? **parts;
                        [first, second, third].into_iter().for_each(f);
                    }
                    ExprP::Slice(array, start, stop, step) => {
                        f(array);
                        [start, stop, step].into_iter().flatten().for_each(|end| f(end));
                    }
                    ExprP::Lambda(lambda) => {
                        lambda.params.$iter().for_each(|param| (& $($mut)? param.node).$visit_expr(&mut f));
                        f(& $($mut)? lambda.body);
                    }
                    ExprP::Op(left, _, right) => {
                        f(left);
                        f(right);
                    }
                    ExprP::Dict(entries) => entries.$iter().for_each(|(key, value)| {
                        f(key);
                        f(value);
                    }),
                    ExprP::ListComprehension(element, first, rest) => {
                        first.$visit_expr(&mut f);
                        rest.$iter().for_each(|clause| clause.$visit_expr(&mut f));
                        f(element);
                    }
                    ExprP::DictComprehension(entry, first, rest) => {
                        first.$visit_expr(&mut f);
                        rest.$iter().for_each(|clause| clause.$visit_expr(&mut f));
                        let (key, value) = & $($mut)? **entry;
                        [key, value].into_iter().for_each(f);
                    }
                }
            }

            /// Calls `f` with the target of each `for` of the comprehension that this is.
            pub(crate) fn $visit_target<'a>(&'a $($mut)? self, mut f: impl FnMut(&'a $($mut)? AssignTargetP<P>)) {
                if let ExprP::ListComprehension(_, first, rest) | ExprP::DictComprehension(_, first, rest) = self {
                    f(& $($mut)? first.var.node);
                    for clause in rest {
                        if let ClauseP::For(clause) = clause {
                            f(& $($mut)? clause.var.node);
                        }
                    }
                }
            }
        }

        impl<P: AstPayload> ParameterP<P> {
            /// Calls `f` with its type and its default value.
            pub fn $visit_expr<'a>(&'a $($mut)? self, mut f: impl FnMut(&'a $($mut)? AstExprP<P>)) {
                let (_, ty, default) = self.$split();
                ty.into_iter().for_each(|ty| f(& $($mut)? ty.node.expr));
                default.into_iter().for_each(f);
            }
        }

        impl<P: AstPayload> ForClauseP<P> {
            /// Calls `f` with each expression directly in the clause.
            pub fn $visit_expr<'a>(&'a $($mut)? self, mut f: impl FnMut(&'a $($mut)? AstExprP<P>)) {
                (& $($mut)? self.var.node).$visit_expr(&mut f);
                f(& $($mut)? self.over);
            }
        }

        impl<P: AstPayload> ClauseP<P> {
            /// Calls `f` with each expression directly in the clause.
            pub fn $visit_expr<'a>(&'a $($mut)? self, mut f: impl FnMut(&'a $($mut)? AstExprP<P>)) {
                match self {
                    ClauseP::For(clause) => clause.$visit_expr(f),
                    ClauseP::If(condition) => f(condition),
                }
            }
        }

        impl<P: AstPayload> AssignTargetP<P> {
            /// Calls `f` with each expression in the target: of `a[i]` those two, of `a.b` the first.
            pub fn $visit_expr<'a>(&'a $($mut)? self, mut f: impl FnMut(&'a $($mut)? AstExprP<P>)) {
                self.each_leaf(&mut |leaf: &'a $($mut)? AssignTargetP<P>| match leaf {
                    AssignTargetP::Tuple(_) | AssignTargetP::Identifier(_) => {}
                    AssignTargetP::Dot(object, _) => f(object),
                    AssignTargetP::Index(parts) => {
                        let (array, index) = & $($mut)? **parts;
                        f(array);
                        f(index);
                    }
                });
            }

            /// Calls `f` with each name that the target binds.
            pub fn $visit_lvalue<'a>(&'a $($mut)? self, mut f: impl FnMut(&'a $($mut)? AstAssignIdentP<P>)) {
                self.each_leaf(&mut |leaf: &'a $($mut)? AssignTargetP<P>| {
                    if let AssignTargetP::Identifier(name) = leaf {
                        f(name);
                    }
                });
            }
        }

        impl<'a, P: AstPayload> EachLeaf<&'a $($mut)? AssignTargetP<P>> for &'a $($mut)? AssignTargetP<P> {
            fn each_leaf(self, f: &mut impl FnMut(&'a $($mut)? AssignTargetP<P>)) {
                let AssignTargetP::Tuple(items) = self else { return f(self) };
                let mut left = vec![items.$iter()];
                while let Some(items) = left.last_mut() {
                    match items.next().map(|item| & $($mut)? item.node) {
                        Some(AssignTargetP::Tuple(inner)) => left.push(inner.$iter()),
                        Some(leaf) => f(leaf),
                        None => drop(left.pop()),
                    }
                }
            }
        }

        impl<P: AstPayload> DefP<P> {
            /// Calls `f` with the types and default values of its parameters, its return type and its body.
            pub fn $visit_children<'a>(&'a $($mut)? self, mut f: impl FnMut($visit<'a, P>)) {
                for param in self.params.$iter() {
                    (& $($mut)? param.node).$visit_expr(|expr| f($visit::Expr(expr)));
                }
                self.return_type.$iter().for_each(|ty| f($visit::Expr(& $($mut)? ty.node.expr)));
                f($visit::Stmt(& $($mut)? self.body));
            }
        }

        impl<P: AstPayload> StmtP<P> {
            /// Calls `f` with each statement and expression directly in this statement.
            pub fn $visit_children<'a>(&'a $($mut)? self, mut f: impl FnMut($visit<'a, P>)) {
                match self {
                    StmtP::Break | StmtP::Continue | StmtP::Pass | StmtP::Load(_) => {}
                    StmtP::Return(value) => value.$iter().for_each(|value| f($visit::Expr(value))),
                    StmtP::Expression(value) => f($visit::Expr(value)),
                    StmtP::Assign(assign) => {
                        (& $($mut)? assign.lhs.node).$visit_expr(|expr| f($visit::Expr(expr)));
                        assign.ty.$iter().for_each(|ty| f($visit::Expr(& $($mut)? ty.node.expr)));
                        f($visit::Expr(& $($mut)? assign.rhs));
                    }
                    StmtP::AssignModify(target, _, value) => {
                        (& $($mut)? target.node).$visit_expr(|expr| f($visit::Expr(expr)));
                        f($visit::Expr(value));
                    }
                    StmtP::Statements(parts) => parts.$iter().for_each(|part| f($visit::Stmt(part))),
                    StmtP::If(condition, then) => {
                        f($visit::Expr(condition));
                        f($visit::Stmt(then));
                    }
                    StmtP::IfElse(condition, parts) => {
                        let (then, otherwise) = & $($mut)? **parts;
                        f($visit::Expr(condition));
                        f($visit::Stmt(then));
                        f($visit::Stmt(otherwise));
                    }
                    StmtP::For(each) => {
                        (& $($mut)? each.var.node).$visit_expr(|expr| f($visit::Expr(expr)));
                        f($visit::Expr(& $($mut)? each.over));
                        f($visit::Stmt(& $($mut)? each.body));
                    }
                    StmtP::Def(def) => def.$visit_children(f),
                }
            }

            /// Calls `f` with the outermost expressions of this statement and of the statements in it, at any depth.
            pub fn $visit_expr<'a>(&'a $($mut)? self, mut f: impl FnMut(&'a $($mut)? AstExprP<P>)) {
                let mut left = Vec::new();
                self.$visit_children(|child| left.push(child));
                left.reverse();
                while let Some(part) = left.pop() {
                    let begin = left.len();
                    match part {
                        $visit::Stmt(stmt) => stmt.node.$visit_children(|child| left.push(child)),
                        $visit::Expr(expr) => f(expr),
                    }
                    left[begin..].reverse();
                }
            }

            /// Calls `f` with the target that this statement assigns to.
            pub(crate) fn $visit_target<'a>(&'a $($mut)? self, mut f: impl FnMut(&'a $($mut)? AssignTargetP<P>)) {
                match self {
                    StmtP::Assign(assign) => f(& $($mut)? assign.lhs.node),
                    StmtP::AssignModify(target, _, _) => f(& $($mut)? target.node),
                    StmtP::For(each) => f(& $($mut)? each.var.node),
                    _ => {}
                }
            }
        }
    };
}

/// The targets in a target that are not tuples.
trait EachLeaf<T> {
    fn each_leaf(self, f: &mut impl FnMut(T));
}

visitors!(Visit, visit_expr, visit_children, visit_lvalue, visit_target, iter, split, expr);
visitors!(
    VisitMut,
    visit_expr_mut,
    visit_children_mut,
    visit_lvalue_mut,
    visit_target_mut,
    iter_mut,
    split_mut,
    expr_mut,
    mut
);

impl<P: AstPayload> DefP<P> {
    /// Calls `f` with what [`visit_children`](Self::visit_children) has, up to the first call that fails.
    pub fn visit_children_err<'a, E>(&'a self, f: impl FnMut(Visit<'a, P>) -> Result<(), E>) -> Result<(), E> {
        until_err(f, |f| self.visit_children(f))
    }
}

impl<P: AstPayload> StmtP<P> {
    /// Calls `f` with what [`visit_children`](Self::visit_children) has, up to the first call that fails.
    pub fn visit_children_err<'a, E>(&'a self, f: impl FnMut(Visit<'a, P>) -> Result<(), E>) -> Result<(), E> {
        until_err(f, |f| self.visit_children(f))
    }

    /// Calls `f` with what [`visit_children_mut`](Self::visit_children_mut) has, up to the first call that fails.
    pub fn visit_children_err_mut<'a, E>(
        &'a mut self,
        f: impl FnMut(VisitMut<'a, P>) -> Result<(), E>,
    ) -> Result<(), E> {
        until_err(f, |f| self.visit_children_mut(f))
    }

    /// Calls `f` with each statement directly in this one.
    pub fn visit_stmt<'a>(&'a self, mut f: impl FnMut(&'a AstStmtP<P>)) {
        self.visit_children(|child| {
            if let Visit::Stmt(stmt) = child {
                f(stmt);
            }
        });
    }

    /// Calls `f` with each statement directly in this one, to change it.
    pub fn visit_stmt_mut<'a>(&'a mut self, mut f: impl FnMut(&'a mut AstStmtP<P>)) {
        self.visit_children_mut(|child| {
            if let VisitMut::Stmt(stmt) = child {
                f(stmt);
            }
        });
    }

    /// Calls `f` with each statement directly in this one, up to the first call that fails.
    pub fn visit_stmt_result<E>(&self, f: impl FnMut(&AstStmtP<P>) -> Result<(), E>) -> Result<(), E> {
        until_err(f, |f| self.visit_stmt(f))
    }

    /// Calls `f` with what [`visit_expr`](Self::visit_expr) has, up to the first call that fails.
    pub fn visit_expr_result<'a, E>(&'a self, f: impl FnMut(&'a AstExprP<P>) -> Result<(), E>) -> Result<(), E> {
        until_err(f, |f| self.visit_expr(f))
    }

    /// Calls `f` with each name that is read in this statement, at any depth, up to the first call that fails.
    pub fn visit_ident<E>(&self, mut f: impl FnMut(&AstIdentP<P>) -> Result<(), E>) -> Result<(), E> {
        self.visit_expr_result(|expr| expr.visit_ident(&mut f))
    }

    /// Calls `f` with each type annotation in this statement, at any depth, up to the first call that fails.
    pub fn visit_type_expr_err_mut<E>(
        &mut self,
        f: &mut impl FnMut(&mut AstTypeExprP<P>) -> Result<(), E>,
    ) -> Result<(), E> {
        match self {
            StmtP::Def(def) => {
                visit_types_mut(&mut def.params, f)?;
                def.return_type.iter_mut().try_for_each(|ty| f(ty))?;
            }
            StmtP::Assign(assign) => assign.ty.iter_mut().try_for_each(&mut *f)?,
            _ => {}
        }
        self.visit_children_err_mut(|child| match child {
            VisitMut::Stmt(stmt) => stmt.visit_type_expr_err_mut(f),
            VisitMut::Expr(expr) => expr.visit_type_expr_err_mut(f),
        })
    }
}

fn visit_types_mut<P: AstPayload, E>(
    params: &mut [AstParameterP<P>],
    f: &mut impl FnMut(&mut AstTypeExprP<P>) -> Result<(), E>,
) -> Result<(), E> {
    params.iter_mut().filter_map(|param| param.split_mut().1).try_for_each(f)
}

impl<P: AstPayload> ExprP<P> {
    /// Calls `f` with what [`visit_expr`](Self::visit_expr) has, up to the first call that fails.
    pub fn visit_expr_err<'a, E>(&'a self, f: impl FnMut(&'a AstExprP<P>) -> Result<(), E>) -> Result<(), E> {
        until_err(f, |f| self.visit_expr(f))
    }

    /// Calls `f` with what [`visit_expr_mut`](Self::visit_expr_mut) has, up to the first call that fails.
    pub fn visit_expr_err_mut<'a, E>(
        &'a mut self,
        f: impl FnMut(&'a mut AstExprP<P>) -> Result<(), E>,
    ) -> Result<(), E> {
        until_err(f, |f| self.visit_expr_mut(f))
    }

    /// Calls `f` with each type annotation in this expression, at any depth, up to the first call that fails.
    fn visit_type_expr_err_mut<E>(
        &mut self,
        f: &mut impl FnMut(&mut AstTypeExprP<P>) -> Result<(), E>,
    ) -> Result<(), E> {
        if let ExprP::Lambda(lambda) = self {
            visit_types_mut(&mut lambda.params, f)?;
        }
        self.visit_expr_err_mut(|expr| expr.visit_type_expr_err_mut(f))
    }

    /// Calls `f` with each name that is read in this expression, at any depth, up to the first call that fails.
    fn visit_ident<E>(&self, f: &mut impl FnMut(&AstIdentP<P>) -> Result<(), E>) -> Result<(), E> {
        if let ExprP::Identifier(name) = self {
            f(name)?;
        }
        self.visit_expr_err(|expr| expr.visit_ident(f))
    }
}
