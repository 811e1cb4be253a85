//! The rows `to_json` of `starlark_rows`: the JSON of each text is the row's, and its tree, written as JSON here
//! again, too. What the rows want was written by hand from docs/JSON.md.
mod book;
mod writing;

use book::rows;
use starlark_syntax::codemap::{Pos, Span};
use starlark_syntax::parse_to_json;
use starlark_syntax::syntax::uniplate::Visit;
use starlark_syntax::syntax::{AstModule, Dialect};

/// The dialect, the text and the expected JSON of each row that has the result for a text.
fn json_rows() -> Vec<(Dialect, String, String)> {
    let rows = rows("starlark_rows", "\n---\n").into_iter().filter_map(|row| {
        let dialect = match row.call.as_str() {
            "to_json all" => Dialect::Extended,
            "to_json standard" => Dialect::Standard,
            "to_json bare" => Dialect::Bare,
            _ => return None,
        };
        Some((dialect, row.text, row.wanted.replacen(r#""file":"a.bzl""#, r#""file":"input""#, 1)))
    });
    rows.collect()
}

#[test]
fn json_is_that_of_the_rows() {
    let rows = json_rows();
    assert!(rows.len() >= 98);
    for (dialect, text, wanted) in rows {
        assert_eq!(parse_to_json(&text, &dialect), Ok(wanted), "{text}");
    }
}

#[test]
fn trees_say_the_same_json() {
    for (dialect, text, wanted) in json_rows() {
        let json = match AstModule::parse("input", text.clone(), &dialect) {
            Ok(module) => writing::module(&module),
            Err(error) => writing::error(&error),
        };
        assert_eq!(json, wanted, "{text}");
    }
}

/// The span of each statement and expression, in the order in which the JSON has them.
fn spans_in(json: &str) -> Vec<Span> {
    let family = |at: &usize| [r#"{"expr":""#, r#"{"stmt":""#].iter().any(|family| json[*at..].starts_with(family));
    let nodes = json.match_indices('{').map(|(at, _)| at).filter(family);
    nodes.map(|at| span_after(&json[at..])).collect()
}

fn span_after(node: &str) -> Span {
    let (_, rest) = node.split_once(r#""span":["#).expect("a span");
    let (span, _) = rest.split_once(']').expect("its end");
    let (begin, end) = span.split_once(',').expect("two numbers");
    let pos = |digits: &str| Pos::new(digits.parse().expect("a number"));
    Span::new(pos(begin), pos(end))
}

#[test]
fn parts_come_in_the_order_of_the_json() {
    for (dialect, text, wanted) in json_rows() {
        if let Ok(module) = AstModule::parse("input", text.clone(), &dialect) {
            let spans = module.statement().parts().map(|part| match part {
                Visit::Stmt(stmt) => stmt.span,
                Visit::Expr(expr) => expr.span,
            });
            assert_eq!(spans.collect::<Vec<_>>(), spans_in(&wanted), "{text}");
        }
    }
}
