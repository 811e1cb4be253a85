//! What the crate returns: trees, errors, texts that nest deep, and calls on many threads.
use starlark_syntax::codemap::{Pos, Span};
use starlark_syntax::lexer::TokenInt;
use starlark_syntax::syntax::ast::{AstLiteral, Expr, Stmt};
use starlark_syntax::syntax::module::AstModuleFields;
use starlark_syntax::syntax::{AstModule, Dialect, DialectTypes};
use starlark_syntax::{DEFAULT_DEPTH, Error, ErrorKind, parse_to_json, parse_to_json_limited};
use std::collections::HashMap;

fn parse(text: &str, dialect: &Dialect) -> Result<AstModule, Error> {
    AstModule::parse("a.bzl", text.to_owned(), dialect)
}

fn span(begin: u32, end: u32) -> Span {
    Span::new(Pos::new(begin), Pos::new(end))
}

#[test]
fn a_module_has_its_statements_and_comments() -> Result<(), Error> {
    let module = parse("load(\"m\", a = \"b\")\nx: int = -1 # one\n", &Dialect::Extended)?;
    assert_eq!(module.comments(), [span(31, 36)]);
    let Stmt::Statements(parts) = &module.statement().node else { panic!("{module:?}") };
    let [load, assign] = parts.as_slice() else { panic!("{parts:?}") };
    let Stmt::Load(load) = &load.node else { panic!("{load:?}") };
    let [arg] = load.args.as_slice() else { panic!("{load:?}") };
    assert_eq!((load.module.as_str(), arg.local.ident.as_str(), arg.their.as_str()), ("m", "a", "b"));
    assert_eq!(module.file_span(arg.span()).source_span(), "a = \"b\"");
    let Stmt::Assign(assign) = &assign.node else { panic!("{assign:?}") };
    let Expr::Minus(one) = &assign.rhs.node else { panic!("{assign:?}") };
    let Expr::Literal(AstLiteral::Int(one)) = &one.node else { panic!("{one:?}") };
    assert_eq!((&one.node, one.span), (&TokenInt::I32(1), span(29, 30)));
    Ok(())
}

#[test]
fn an_error_has_its_place() {
    let error = parse("x = 1\ny = (\n  = 2)\n", &Dialect::Extended).unwrap_err();
    assert_eq!(error.kind(), ErrorKind::UnexpectedToken);
    assert_eq!(error.span().map(|place| place.span), Some(span(14, 15)));
    assert_eq!(error.span().map(|place| place.source_span()), Some("="));
    assert_eq!(error.to_string(), "a.bzl:3:3-4: Parse error: unexpected token");
    let error_at_end = parse("\n(unmatched", &Dialect::Standard).unwrap_err();
    assert_eq!(error_at_end.span().map(|place| place.to_string()).as_deref(), Some("a.bzl:2:11"));
    assert_eq!(error.without_diagnostic().to_string(), "Parse error: unexpected token");
}

#[test]
fn a_file_that_is_not_there_is_an_error() {
    let error = AstModule::parse_file("no/such/file.bzl".as_ref(), &Dialect::Standard).unwrap_err();
    assert_eq!((error.kind(), error.span()), (ErrorKind::Io, None));
    assert!(error.to_string().starts_with("no/such/file.bzl: "));
}

#[test]
fn a_dialect_refuses_what_is_off() {
    let text = "def f(x): return lambda: x\n";
    assert_eq!(parse(text, &Dialect::Bare).map_err(|error| error.kind()).err(), Some(ErrorKind::Dialect));
    assert!(parse(text, &Dialect::Standard).is_ok());
    let no_lambda = Dialect { enable_lambda: false, ..Dialect::AllOptionsInternal };
    let error = parse(text, &no_lambda).unwrap_err();
    assert_eq!(error.to_string(), "a.bzl:1:18-27: `lambda` is not allowed in this dialect");
    let types = Dialect { enable_types: DialectTypes::ParseOnly, ..Dialect::default() };
    assert!(parse("x: int = 1", &types).is_ok() && parse("x: int = 1", &Dialect::default()).is_err());
}

#[test]
fn an_empty_text_is_no_statements() -> Result<(), Error> {
    let module = parse("", &Dialect::Bare)?;
    assert!(matches!(&module.statement().node, Stmt::Statements(parts) if parts.is_empty()));
    assert!(module.comments().is_empty() && module.loads().is_empty() && module.stmt_locations().is_empty());
    assert!(!AstModuleFields::into_parts(module).3);
    Ok(())
}

#[test]
fn errors_and_modules_go_to_other_threads() {
    fn goes<T: Send + Sync>() {}
    goes::<Error>();
    goes::<AstModule>();
}

#[test]
fn an_answer_may_be_longer_than_the_room_at_first() -> Result<(), Error> {
    let text = "0;".repeat(300);
    assert!(parse_to_json(&text, &Dialect::Extended)?.len() > 40 * text.len() + 512);
    assert!(parse(&text, &Dialect::Extended).is_ok());
    Ok(())
}

/// Texts of so many levels, of which each takes one of a limit.
fn deep_texts(levels: usize) -> [String; 6] {
    [
        "[".repeat(levels) + &"]".repeat(levels),
        "x".to_owned() + &".y".repeat(levels),
        "-".repeat(levels) + "x",
        "x = y".to_owned() + &" + y".repeat(levels - 1),
        "[".repeat(levels) + "x" + &"]".repeat(levels) + " = y",
        "if x: pass\n".to_owned() + &"elif y: pass\n".repeat(levels - 1),
    ]
}

#[test]
fn a_text_is_refused_at_the_first_token_that_nests_deeper() -> Result<(), Error> {
    let depth = DEFAULT_DEPTH as usize;
    for text in deep_texts(depth - 10) {
        parse(&text, &Dialect::Extended)?;
    }
    for text in deep_texts(20_000) {
        let error = parse(&text, &Dialect::Extended).unwrap_err();
        assert_eq!((error.kind(), error.message()), (ErrorKind::Lexer, "TooDeep"));
        assert!(parse_to_json(&text, &Dialect::Extended)?.contains("\"TooDeep\""));
    }
    for depth in [3, 249, 250, 251, 3_000] {
        let text = "[".repeat(4_000);
        let limited = |depth| AstModule::parse_limited("a.bzl", text.clone(), &Dialect::Extended, depth);
        let error = limited(depth).unwrap_err();
        assert_eq!(error.span().map(|place| place.span), Some(span(depth, depth + 1)));
        let closed = "[".repeat(depth as usize) + &"]".repeat(depth as usize);
        assert!(AstModule::parse_limited("a.bzl", closed, &Dialect::Extended, depth).is_ok());
    }
    Ok(())
}

#[test]
fn a_deep_module_needs_no_deep_stack() -> Result<(), Error> {
    for text in deep_texts(30_000) {
        let mut module = AstModule::parse_limited("a.bzl", text.clone(), &Dialect::Extended, 40_000)?;
        assert!(module.lint(None).is_empty());
        let count = module.stmt_locations().len();
        module.replace_binary_operators(&HashMap::from([("+".to_owned(), "add".to_owned())]));
        let clone = module.clone();
        drop(module);
        assert_eq!((clone.stmt_locations().len(), clone.codemap().source()), (count, text.as_str()));
        assert!(parse_to_json_limited(&text, &Dialect::Extended, 40_000)?.starts_with("{\"version\":1,\"file\""));
    }
    Ok(())
}

#[test]
fn threads_share_nothing() -> Result<(), Error> {
    let text = "def f(a, b = 1):\n  return [x for x in range(a) if x in {b: [1, 2]}]\n".repeat(50);
    let tree = || parse(&text, &Dialect::Extended).map(|module| format!("{module:?}"));
    let one = tree()?;
    let is_same = || (0..10).all(|_| tree().as_ref() == Ok(&one));
    let all_same = std::thread::scope(|scope| {
        let threads: Vec<_> = (0..8).map(|_| scope.spawn(is_same)).collect();
        threads.into_iter().all(|thread| thread.join().is_ok_and(|is_same| is_same))
    });
    assert!(all_same);
    Ok(())
}
