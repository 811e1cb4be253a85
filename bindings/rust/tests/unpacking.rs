//! Arguments and parameters by their kinds, and what types mean: the rows `unpack` of `starlark_tree_rows`, and the
//! errors of the library.
mod book;

use book::{Row, rows};
use starlark_syntax::codemap::{Span, Spanned};
use starlark_syntax::syntax::ast::*;
use starlark_syntax::syntax::call::CallArgsUnpack;
use starlark_syntax::syntax::def::{DefParamKind, DefParams, DefRegularParamMode};
use starlark_syntax::syntax::type_expr::{TypeExprUnpackP, TypePathP};
use starlark_syntax::syntax::{AstModule, Dialect};
use std::fmt::Display;

fn module_of(text: &str) -> AstModule {
    AstModule::parse("a.bzl", text.to_owned(), &Dialect::Extended).expect("a module")
}

fn at(span: Span) -> String {
    format!("{}..{}", span.begin().get(), span.end().get())
}

fn args_of(module: &AstModule) -> &CallArgsP<AstNoPayload> {
    let StmtP::Expression(expr) = &module.statement().node else { panic!("{module:?}") };
    let ExprP::Call(_, args) = &expr.node else { panic!("{module:?}") };
    args
}

fn params_of(module: &AstModule) -> &[AstParameter] {
    match &module.statement().node {
        StmtP::Def(def) => &def.params,
        StmtP::Expression(expr) => match &expr.node {
            ExprP::Lambda(lambda) => &lambda.params,
            _ => panic!("{module:?}"),
        },
        _ => panic!("{module:?}"),
    }
}

fn told_args(module: &AstModule) -> String {
    let args = CallArgsUnpack::unpack(args_of(module), module.codemap()).expect("arguments in order");
    let told = |kind: &'static str| move |arg: &AstArgument| format!("{kind} {} {}; ", at(arg.span), arg.node);
    let pos = args.pos.iter().map(told("positional"));
    let named = args.named.iter().map(told("named"));
    pos.chain(named).chain(args.star.map(told("star"))).chain(args.star_star.map(told("star_star"))).collect()
}

fn told_type(module: &AstModule) -> String {
    let StmtP::Expression(expr) = &module.statement().node else { panic!("{module:?}") };
    match TypeExprUnpackP::unpack(expr, module.codemap()) {
        Ok(ty) => format!("{} {}", at(ty.span), told_type_node(&ty.node)),
        Err(error) => format!("{}: {}", at(error.span().expect("a place").span), error.message()),
    }
}

fn told_type_node(ty: &TypeExprUnpackP<'_, AstNoPayload>) -> String {
    let path = |path: &TypePathP<'_, AstNoPayload>| {
        path.rem.iter().fold(path.first.ident.clone(), |told, name| told + "." + name.node)
    };
    let told =
        |ty: &Spanned<TypeExprUnpackP<'_, AstNoPayload>>| format!("{} {}", at(ty.span), told_type_node(&ty.node));
    let all = |kind: &str, members: &[Spanned<TypeExprUnpackP<'_, AstNoPayload>>]| {
        members.iter().fold(kind.to_owned(), |all, member| format!("{all} <{}>", told(member)))
    };
    match ty {
        TypeExprUnpackP::Ellipsis => "...".to_owned(),
        TypeExprUnpackP::Path(names) => path(names),
        TypeExprUnpackP::Index(name, index) => format!("{}[{}]", name.node, told(index)),
        TypeExprUnpackP::Index2(names, first, second) => format!("{}[{}, {}]", path(names), told(first), told(second)),
        TypeExprUnpackP::List(members) => all("List", members),
        TypeExprUnpackP::Union(members) => all("Union", members),
        TypeExprUnpackP::Tuple(members) => all("Tuple", members),
    }
}

fn or_dash(value: Option<&impl Display>) -> String {
    value.map_or("-".to_owned(), |value| value.to_string())
}

fn told_params(module: &AstModule) -> String {
    let DefParams { params, indices } = DefParams::unpack(params_of(module), module.codemap()).expect("parameters");
    let told = params.iter().map(|param| {
        let ty = or_dash(param.ty.map(|ty| &ty.node));
        let how = match &param.kind {
            DefParamKind::Args => format!("args {ty}"),
            DefParamKind::Kwargs => format!("kwargs {ty}"),
            DefParamKind::Regular(mode, default) => {
                let mode = match mode {
                    DefRegularParamMode::PosOnly => "position",
                    DefRegularParamMode::PosOrName => "either",
                    DefRegularParamMode::NameOnly => "name",
                };
                format!("by {mode} {ty} {}", or_dash(default.map(|default| &default.node)))
            }
        };
        format!("{} {} {how}; ", at(param.span), param.ident.node)
    });
    let counts = format!("{} {}", indices.num_positional, indices.num_positional_only);
    let ranges = [indices.pos_only(), indices.pos_or_named(), indices.named_only(params.len())];
    let ranges = ranges.map(|range| format!("{range:?}")).join(" ");
    told.collect::<String>() + &format!("{counts} {:?} {:?} {ranges}", indices.args, indices.kwargs)
}

#[test]
fn nodes_are_unpacked_as_the_rows_say() {
    let mut tried = 0;
    for Row { call, text, wanted } in rows("starlark_tree_rows", "\n---\n") {
        let told = match call.as_str() {
            "unpack CallArgsUnpack::unpack" => told_args(&module_of(&text)),
            "unpack DefParams::unpack" => told_params(&module_of(&text)),
            "unpack TypeExprUnpackP::unpack" => told_type(&module_of(&text)),
            _ => continue,
        };
        assert_eq!(told, wanted, "{call}\n{text}");
        tried += 1;
    }
    assert!(tried >= 47, "{tried}");
}

/// The message with which the library refuses a text.
fn refusal(text: &str) -> String {
    AstModule::parse("a.bzl", text.to_owned(), &Dialect::Extended).unwrap_err().message().to_owned()
}

#[test]
fn arguments_are_refused_as_the_library_does() {
    for list in ["a = 1; 2", "*a; b = 1", "**a; b = 1", "*a; *b", "**a; *b", "**a; **b", "a = 1; a = 2", "*a; 1"] {
        let modules: Vec<_> = list.split("; ").map(|arg| module_of(&format!("f({arg})"))).collect();
        let args = modules.iter().flat_map(|module| args_of(module).args.clone()).collect();
        let args = CallArgsP { args };
        let error = CallArgsUnpack::unpack(&args, modules[0].codemap()).unwrap_err();
        assert_eq!(error.message(), refusal(&format!("f({})", list.replace("; ", ", "))), "{list}");
    }
}

/// A parameter of this text.
fn param(text: &str) -> AstParameter {
    match text {
        "*" => params_of(&module_of("def f(*, z): pass"))[0].clone(),
        "/" => params_of(&module_of("def f(z, /): pass"))[1].clone(),
        _ => params_of(&module_of(&format!("def f({text}): pass")))[0].clone(),
    }
}

#[test]
fn parameters_are_refused_as_the_library_does() {
    let lists = [
        "/; a",
        "a; a",
        "**k; a",
        "a = 1; b",
        "*; a; *",
        "*a; *b",
        "*a; *; b",
        "a; /; /",
        "a; *; b; /",
        "**a; **b",
        "a; *",
        "*; **k",
        "*; a; *b",
        "**k; *a",
        "a; /; *; /",
    ];
    for list in lists {
        let params: Vec<_> = list.split("; ").map(param).collect();
        let error = DefParams::unpack(&params, module_of("").codemap()).map(|_| ()).unwrap_err();
        assert_eq!(error.message(), refusal(&format!("def f({}): pass", list.replace("; ", ", "))), "{list}");
    }
}
