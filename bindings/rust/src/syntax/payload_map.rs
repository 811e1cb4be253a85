//! A tree with other payloads: each payload is given to a function, and what it returns is in the new tree.
use crate::codemap::Spanned;
use crate::syntax::ast::*;

/// A function from the payloads of one family to those of another.
pub trait AstPayloadFunction<A: AstPayload, B: AstPayload> {
    /// The payload of a load of this module. It comes before those in the load.
    fn map_load(&mut self, import_path: &str, a: A::LoadPayload) -> B::LoadPayload;
    /// The payload of a name that is read.
    fn map_ident(&mut self, a: A::IdentPayload) -> B::IdentPayload;
    /// The payload of a name that is bound.
    fn map_ident_assign(&mut self, a: A::IdentAssignPayload) -> B::IdentAssignPayload;
    /// The payload of a function or a lambda. It comes after those in the function.
    fn map_def(&mut self, a: A::DefPayload) -> B::DefPayload;
    /// The payload of a type annotation. It comes after those in the annotation.
    fn map_type_expr(&mut self, a: A::TypeExprPayload) -> B::TypeExprPayload;
}

/// What a function of payloads makes of a part of a tree.
trait Mapped<A, B, F> {
    type Out;

    fn mapped(self, f: &mut F) -> Self::Out;
}

impl<A, B, F, T: Mapped<A, B, F>> Mapped<A, B, F> for Vec<T> {
    type Out = Vec<T::Out>;

    fn mapped(self, f: &mut F) -> Self::Out {
        self.into_iter().map(|item| item.mapped(f)).collect()
    }
}

impl<A, B, F, T: Mapped<A, B, F>> Mapped<A, B, F> for Option<T> {
    type Out = Option<T::Out>;

    fn mapped(self, f: &mut F) -> Self::Out {
        self.map(|item| item.mapped(f))
    }
}

impl<A, B, F, T: Mapped<A, B, F>> Mapped<A, B, F> for Box<T> {
    type Out = Box<T::Out>;

    fn mapped(self, f: &mut F) -> Self::Out {
        Box::new((*self).mapped(f))
    }
}

impl<A, B, F, T: Mapped<A, B, F>> Mapped<A, B, F> for Spanned<T> {
    type Out = Spanned<T::Out>;

    fn mapped(self, f: &mut F) -> Self::Out {
        self.map(|node| node.mapped(f))
    }
}

impl<A, B, F, T: Mapped<A, B, F>> Mapped<A, B, F> for (T, T) {
    type Out = (T::Out, T::Out);

    fn mapped(self, f: &mut F) -> Self::Out {
        (self.0.mapped(f), self.1.mapped(f))
    }
}

impl<A, B, F, T: Mapped<A, B, F>> Mapped<A, B, F> for (T, T, T) {
    type Out = (T::Out, T::Out, T::Out);

    fn mapped(self, f: &mut F) -> Self::Out {
        (self.0.mapped(f), self.1.mapped(f), self.2.mapped(f))
    }
}

/// What each form of a node is mapped to.
macro_rules! mapped {
    ($node:ident, $this:ident, $f:ident, $mapped:expr) => {
        impl<A: AstPayload, B: AstPayload, F: AstPayloadFunction<A, B>> Mapped<A, B, F> for $node<A> {
            type Out = $node<B>;

            fn mapped(self, $f: &mut F) -> Self::Out {
                let $this = self;
                $mapped
            }
        }
    };
}

mapped!(IdentP, name, f, IdentP { ident: name.ident, payload: f.map_ident(name.payload) });
mapped!(AssignIdentP, name, f, AssignIdentP { ident: name.ident, payload: f.map_ident_assign(name.payload) });
mapped!(CallArgsP, call, f, CallArgsP { args: call.args.mapped(f) });
mapped!(ForClauseP, clause, f, ForClauseP { var: clause.var.mapped(f), over: clause.over.mapped(f) });
mapped!(ForP, each, f, ForP { var: each.var.mapped(f), over: each.over.mapped(f), body: each.body.mapped(f) });
mapped!(AssignP, a, f, AssignP { lhs: a.lhs.mapped(f), ty: a.ty.mapped(f), rhs: a.rhs.mapped(f) });
mapped!(FStringP, text, f, FStringP { format: text.format, expressions: text.expressions.mapped(f) });
mapped!(LoadArgP, arg, f, LoadArgP { local: arg.local.mapped(f), their: arg.their, comma: arg.comma });

mapped!(TypeExprP, ty, f, {
    let expr = ty.expr.mapped(f);
    TypeExprP { expr, payload: f.map_type_expr(ty.payload) }
});

mapped!(LambdaP, lambda, f, {
    let params = lambda.params.mapped(f);
    let body = lambda.body.mapped(f);
    LambdaP { params, body, payload: f.map_def(lambda.payload) }
});

mapped!(DefP, def, f, {
    let name = def.name.mapped(f);
    let params = def.params.mapped(f);
    let return_type = def.return_type.mapped(f);
    let body = def.body.mapped(f);
    DefP { name, params, return_type, body, payload: f.map_def(def.payload) }
});

mapped!(LoadP, load, f, {
    let payload = f.map_load(&load.module, load.payload);
    LoadP { module: load.module, args: load.args.mapped(f), payload }
});

mapped!(ClauseP, clause, f, {
    match clause {
        ClauseP::For(clause) => ClauseP::For(clause.mapped(f)),
        ClauseP::If(condition) => ClauseP::If(condition.mapped(f)),
    }
});

mapped!(ArgumentP, argument, f, {
    match argument {
        ArgumentP::Positional(value) => ArgumentP::Positional(value.mapped(f)),
        ArgumentP::Named(name, value) => ArgumentP::Named(name, value.mapped(f)),
        ArgumentP::Args(value) => ArgumentP::Args(value.mapped(f)),
        ArgumentP::KwArgs(value) => ArgumentP::KwArgs(value.mapped(f)),
    }
});

mapped!(ParameterP, param, f, {
    match param {
        ParameterP::Slash => ParameterP::Slash,
        ParameterP::NoArgs => ParameterP::NoArgs,
        ParameterP::Normal(name, ty, default) => ParameterP::Normal(name.mapped(f), ty.mapped(f), default.mapped(f)),
        ParameterP::Args(name, ty) => ParameterP::Args(name.mapped(f), ty.mapped(f)),
        ParameterP::KwArgs(name, ty) => ParameterP::KwArgs(name.mapped(f), ty.mapped(f)),
    }
});

mapped!(AssignTargetP, target, f, {
    match target {
        AssignTargetP::Tuple(items) => AssignTargetP::Tuple(items.mapped(f)),
        AssignTargetP::Index(parts) => AssignTargetP::Index(parts.mapped(f)),
        AssignTargetP::Dot(object, name) => AssignTargetP::Dot(object.mapped(f), name),
        AssignTargetP::Identifier(name) => AssignTargetP::Identifier(name.mapped(f)),
    }
});

mapped!(ExprP, expr, f, {
    match expr {
        ExprP::Tuple(items) => ExprP::Tuple(items.mapped(f)),
        ExprP::Dot(object, name) => ExprP::Dot(object.mapped(f), name),
        ExprP::Call(callee, args) => ExprP::Call(callee.mapped(f), args.mapped(f)),
        ExprP::Index(parts) => ExprP::Index(parts.mapped(f)),
        ExprP::Index2(parts) => ExprP::Index2(parts.mapped(f)),
        ExprP::Slice(array, start, stop, step) => {
            ExprP::Slice(array.mapped(f), start.mapped(f), stop.mapped(f), step.mapped(f))
        }
        ExprP::Identifier(name) => ExprP::Identifier(name.mapped(f)),
        ExprP::Lambda(lambda) => ExprP::Lambda(lambda.mapped(f)),
        ExprP::Literal(literal) => ExprP::Literal(literal),
        ExprP::Not(operand) => ExprP::Not(operand.mapped(f)),
        ExprP::Minus(operand) => ExprP::Minus(operand.mapped(f)),
        ExprP::Plus(operand) => ExprP::Plus(operand.mapped(f)),
        ExprP::BitNot(operand) => ExprP::BitNot(operand.mapped(f)),
        ExprP::Op(left, op, right) => ExprP::Op(left.mapped(f), op, right.mapped(f)),
        ExprP::If(parts) => ExprP::If(parts.mapped(f)),
        ExprP::List(items) => ExprP::List(items.mapped(f)),
        ExprP::Dict(entries) => ExprP::Dict(entries.mapped(f)),
        ExprP::ListComprehension(element, first, rest) => {
            ExprP::ListComprehension(element.mapped(f), first.mapped(f), rest.mapped(f))
        }
        ExprP::DictComprehension(entry, first, rest) => {
            ExprP::DictComprehension(entry.mapped(f), first.mapped(f), rest.mapped(f))
        }
        ExprP::FString(text) => ExprP::FString(text.mapped(f)),
    }
});

mapped!(StmtP, stmt, f, {
    match stmt {
        StmtP::Break => StmtP::Break,
        StmtP::Continue => StmtP::Continue,
        StmtP::Pass => StmtP::Pass,
        StmtP::Return(value) => StmtP::Return(value.mapped(f)),
        StmtP::Expression(value) => StmtP::Expression(value.mapped(f)),
        StmtP::Assign(assign) => StmtP::Assign(assign.mapped(f)),
        StmtP::AssignModify(target, op, value) => StmtP::AssignModify(target.mapped(f), op, value.mapped(f)),
        StmtP::Statements(parts) => StmtP::Statements(parts.mapped(f)),
        StmtP::If(condition, then) => StmtP::If(condition.mapped(f), then.mapped(f)),
        StmtP::IfElse(condition, blocks) => StmtP::IfElse(condition.mapped(f), blocks.mapped(f)),
        StmtP::For(each) => StmtP::For(each.mapped(f)),
        StmtP::Def(def) => StmtP::Def(def.mapped(f)),
        StmtP::Load(load) => StmtP::Load(load.mapped(f)),
    }
});

macro_rules! into_map_payload {
    ($($node:ident)*) => { $(
        impl<A: AstPayload> $node<A> {
            /// The same node with the payloads that `f` returns.
            pub fn into_map_payload<B: AstPayload>(self, f: &mut impl AstPayloadFunction<A, B>) -> $node<B> {
                self.mapped(f)
            }
        }
    )* };
}

into_map_payload! {
    IdentP AssignIdentP ForClauseP ForP AssignP FStringP LoadArgP TypeExprP LoadP ClauseP ArgumentP ParameterP
    AssignTargetP ExprP StmtP
}

macro_rules! extensions {
    ($($node:ident $ext:ident)*) => { $(
        /// The payload map of a node with its span.
        pub trait $ext<A: AstPayload> {
            /// The same node with the payloads that `f` returns, at the same place.
            fn into_map_payload<B: AstPayload>(self, f: &mut impl AstPayloadFunction<A, B>) -> Spanned<$node<B>>;
        }

        impl<A: AstPayload> $ext<A> for Spanned<$node<A>> {
            fn into_map_payload<B: AstPayload>(self, f: &mut impl AstPayloadFunction<A, B>) -> Spanned<$node<B>> {
                self.mapped(f)
            }
        }
    )* };
}

extensions! {
    ExprP ExprPExt
    TypeExprP TypeExprPExt
    AssignTargetP AssignTargetPExt
    AssignIdentP AssignIdentPExt
    IdentP IdentPExt
    ParameterP ParameterPExt
    ArgumentP ArgumentPExt
    StmtP StmtPExt
    FStringP FStringPExt
}

#[cfg(test)]
mod tests {
    use super::*;
    use crate::syntax::{AstModule, Dialect};

    /// A family that numbers everything.
    #[derive(Debug)]
    struct Numbers;

    impl AstPayload for Numbers {
        type LoadPayload = usize;
        type IdentPayload = usize;
        type IdentAssignPayload = usize;
        type DefPayload = usize;
        type TypeExprPayload = usize;
    }

    /// What was asked for, in order.
    #[derive(Default)]
    struct Asked(Vec<String>);

    impl Asked {
        fn next(&mut self, what: &str) -> usize {
            self.0.push(what.to_owned());
            self.0.len()
        }
    }

    impl AstPayloadFunction<AstNoPayload, Numbers> for Asked {
        fn map_load(&mut self, import_path: &str, (): ()) -> usize {
            self.next(&format!("load {import_path}"))
        }

        fn map_ident(&mut self, (): ()) -> usize {
            self.next("ident")
        }

        fn map_ident_assign(&mut self, (): ()) -> usize {
            self.next("assign")
        }

        fn map_def(&mut self, (): ()) -> usize {
            self.next("def")
        }

        fn map_type_expr(&mut self, (): ()) -> usize {
            self.next("type")
        }
    }

    // The order of each, and what prints, are those of the rows `map` of starlark_tree_rows.
    #[test]
    fn payloads_are_asked_for_in_order() {
        for (text, wanted) in [
            ("def f(x: t = d): return x\n", "assign assign ident type ident ident def"),
            ("load(\"//p:m\", \"a\", b = \"c\")\n", "load //p:m assign assign"),
            ("lambda p, q=d: f(p, [q])\n", "assign assign ident ident ident ident def"),
            ("x[i]: t = {k: -v[1:2]}\n", "ident ident ident type ident ident"),
        ] {
            let module = AstModule::parse("a.bzl", text.to_owned(), &Dialect::Extended).expect("a module");
            let mut asked = Asked::default();
            let numbered = module.statement().clone().into_map_payload(&mut asked);
            assert_eq!(asked.0.join(" "), wanted, "{text}");
            assert_eq!(
                (numbered.to_string(), numbered.span),
                (module.statement().to_string(), module.statement().span)
            );
            if let StmtP::Def(def) = &numbered.node {
                assert_eq!((def.payload, def.name.payload), (7, 1));
            }
        }
    }
}
