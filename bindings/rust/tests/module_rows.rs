//! The rows of `starlark_rows`: what a module prints, its locations, comments, loads and issues, its operators
//! replaced, what its comments suppress, and its errors.
mod book;

use book::{Row, rows};
use starlark_syntax::codemap::{Pos, Span};
use starlark_syntax::syntax::ast::{AstExpr, AstLiteral, Expr};
use starlark_syntax::syntax::{AstModule, Dialect};
use std::collections::HashMap;
use std::fmt::Write;

/// What the program prints for a text in this mode, with its status.
fn told(dialect: &Dialect, mode: &str, text: &str) -> String {
    let module = match AstModule::parse("stdin", text.to_owned(), dialect) {
        Ok(module) => module,
        Err(error) => return format!("1\n{error}"),
    };
    let told: String = match mode {
        "print" => with_float_sources(&module),
        "locations" => module.stmt_locations().iter().fold(String::new(), |told, at| told + &line(&at.resolve_span())),
        "comments" => module
            .comments()
            .iter()
            .map(|span| module.file_span(*span))
            .fold(String::new(), |told, at| told + &line(&format!("{} {}", at.resolve_span(), at.source_span()))),
        "loads" => module.loads().iter().fold(String::new(), |told, load| {
            let symbols = load.symbols.iter().map(|(local, their)| format!(", {local} = {}", quoted(their)));
            let symbols = symbols.collect::<String>();
            told + &line(&format!("{} {}{symbols}", load.span.resolve_span(), quoted(load.module_id)))
        }),
        "lint" => module.lint(None).iter().fold(String::new(), |told, issue| {
            told + &line(&format!("{} {}", issue.location.resolve_span(), issue.short_name))
        }),
        _ => panic!("{mode}"),
    };
    format!("0\n{told}").trim_end_matches('\n').to_owned()
}

fn line(told: &dyn std::fmt::Display) -> String {
    format!("{told}\n")
}

fn quoted(text: &str) -> String {
    format!("\"{}\"", text.replace('\\', "\\\\").replace('"', "\\\"").replace('\n', "\\n").replace('\t', "\\t"))
}

/// The module as it prints, with the source text of each float literal in place of its value.
fn with_float_sources(module: &AstModule) -> String {
    fn mark(expr: &mut AstExpr, floats: &mut Vec<(String, Span)>) {
        if let Expr::Literal(AstLiteral::Float(value)) = &mut expr.node {
            value.node = 7654321.03125 + floats.len() as f64;
            floats.push((value.node.to_string(), expr.span));
        }
        expr.visit_expr_mut(|child| mark(child, floats));
    }
    let (mut module, mut floats) = (module.clone(), Vec::new());
    module.statement_mut().visit_expr_mut(|expr| mark(expr, &mut floats));
    let printed = module.statement().to_string();
    floats.iter().fold(printed, |printed, (mark, span)| printed.replace(mark, module.codemap().source_span(*span)))
}

#[test]
fn modules_are_told_as_the_rows_say() {
    let mut tried = 0;
    for Row { call, text, wanted } in rows("starlark_rows", "\n--- ") {
        let (dialect, mode) = match call.split_once(' ') {
            Some(("all", mode)) => (Dialect::Extended, mode),
            Some(("bare", mode)) => (Dialect::Bare, mode),
            _ => continue,
        };
        if wanted.starts_with('2') {
            continue; // arguments that the program refuses
        }
        let told = told(&dialect, mode, &text);
        if told.ends_with(": TooDeep") {
            continue; // the program has no limit on depth
        }
        assert_eq!(told, wanted, "{call}\n{text}");
        tried += 1;
    }
    assert!(tried > 1500, "{tried}");
}

#[test]
fn operators_are_replaced_as_the_rows_say() {
    let mut tried = 0;
    for Row { call, text, wanted } in rows("starlark_rows", "\n---\n") {
        let Some(table) = call.strip_prefix("replace ") else { continue };
        let pairs = table.split(", ").filter_map(|pair| pair.rsplit_once(' '));
        let table: HashMap<_, _> = pairs.map(|(op, name)| (op.to_owned(), name.to_owned())).collect();
        let mut module = AstModule::parse("stdin", text.clone(), &Dialect::Extended).expect("a module");
        module.replace_binary_operators(&table);
        assert_eq!(module.statement().to_string().trim_end(), wanted, "{text}");
        tried += 1;
    }
    assert!(tried >= 18, "{tried}");
}

#[test]
fn comments_suppress_as_the_rows_say() {
    let mut tried = 0;
    for Row { call, text, wanted } in rows("starlark_rows", "\n---\n") {
        let Some(asked) = call.strip_prefix("suppressed ") else { continue };
        let (name, spans) = asked.split_once(' ').expect("spans");
        let module = AstModule::parse("stdin", text.clone(), &Dialect::Extended).expect("a module");
        let mut told = String::new();
        for span in spans.split(' ') {
            let (begin, end) = span.split_once("..").expect("two numbers");
            let pos = |digits: &str| Pos::new(digits.parse().expect("a number"));
            if module.is_suppressed(name, Span::new(pos(begin), pos(end))) {
                write!(told, "{span} ").expect("a string");
            }
        }
        assert_eq!(told, wanted, "{call}\n{text}");
        tried += 1;
    }
    assert!(tried >= 9, "{tried}");
}
