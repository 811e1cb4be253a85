//! The examples, which are tools against the API of the original, on texts.
#[allow(dead_code)]
#[path = "../examples/documentation.rs"]
mod documentation;
#[allow(dead_code)]
#[path = "../examples/load_graph.rs"]
mod load_graph;
#[allow(dead_code)]
#[path = "../examples/names.rs"]
mod names;

use starlark_syntax::Result;
use starlark_syntax::syntax::{AstModule, Dialect};

fn parse(name: &str, text: &str) -> Result<AstModule> {
    AstModule::parse(name, text.to_owned(), &Dialect::Extended)
}

#[test]
fn a_load_graph() -> Result<()> {
    let mut graph = load_graph::LoadGraph::default();
    graph.add(&parse("b.bzl", "load(\"c.bzl\", \"x\", y = \"z\")\nload(\"a.bzl\", \"w\")\n")?);
    graph.add(&parse("a.bzl", "load(\"c.bzl\", \"x\")\n")?);
    let wanted = r#"digraph loads {
  "a.bzl" -> "c.bzl" [label = "x"];
  "b.bzl" -> "a.bzl" [label = "w"];
  "b.bzl" -> "c.bzl" [label = "x, z as y"];
}
"#;
    assert_eq!(graph.to_dot(), wanted);
    Ok(())
}

#[test]
fn a_documentation() -> Result<()> {
    let module = parse(
        "a.bzl",
        r#""""Rules."""

def rule(name: str, *, deps = [], **kwargs) -> None:
  """Makes a rule.

  Args: name
  """
  pass

def _private(): pass
def other(x): return x
"#,
    )?;
    let wanted = "# a.bzl

Rules.

## `rule(name: str, *, deps = [], **kwargs) -> None`, line 3

Makes a rule.

Args: name

## `other(x)`, line 11
";
    assert_eq!(documentation::documentation(&module), wanted);
    Ok(())
}

#[test]
fn names() -> Result<()> {
    let module = parse(
        "a.bzl",
        r#"load("m.bzl", "_hidden", a = "b")
MAX = 1
mixedCase = 2
def Run(Arg, *, ok):
  LOCAL = 1
  return [lambda X: X for (I, j) in ok if ["é" for d, K in j]]
"#,
    )?;
    let wanted = [
        "a.bzl:1:15-24: `_hidden` is private to m.bzl",
        "a.bzl:3:1-10: the variable `mixedCase` is not in lower_case",
        "a.bzl:4:5-8: the function `Run` is not in lower_case",
        "a.bzl:4:9-12: the parameter `Arg` is not in lower_case",
        "a.bzl:5:3-8: the variable `LOCAL` is not in lower_case",
        "a.bzl:6:18-19: the parameter `X` is not in lower_case",
        "a.bzl:6:28-29: the variable `I` is not in lower_case",
        "a.bzl:6:55-56: the variable `K` is not in lower_case",
    ];
    assert_eq!(names::issues(&module), wanted);
    Ok(())
}
