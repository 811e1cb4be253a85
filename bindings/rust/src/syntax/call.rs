//! The arguments of a call, by their kinds.
use crate::codemap::{CodeMap, Span};
use crate::error::{Error, ErrorKind, Fault};
use crate::syntax::ast::{ArgumentP, AstArgumentP, AstPayload, CallArgsP};
use std::collections::HashSet;

/// The arguments of a call, by their kinds.
#[derive(Debug)]
pub struct CallArgsUnpack<'a, P: AstPayload> {
    /// Those by position.
    pub pos: &'a [AstArgumentP<P>],
    /// Those by name.
    pub named: &'a [AstArgumentP<P>],
    /// The one with `*`.
    pub star: Option<&'a AstArgumentP<P>>,
    /// The one with `**`.
    pub star_star: Option<&'a AstArgumentP<P>>,
}

impl<'a, P: AstPayload> CallArgsUnpack<'a, P> {
    /// The arguments of a call.
    ///
    /// # Errors
    ///
    /// [`ErrorKind::Call`]: the first argument that is out of order, or whose name an earlier one has. A call that was
    /// parsed has none.
    pub fn unpack(args: &'a CallArgsP<P>, codemap: &CodeMap) -> Result<Self, Error> {
        let args = args.args.as_slice();
        test_order(args).map_err(|(message, span)| {
            Fault { kind: ErrorKind::Call, message: message.to_owned(), span: Some(span) }.in_file(codemap)
        })?;
        let count = |kind: Kind| args.iter().filter(|arg| kind_of(arg) == kind).count();
        let (pos, rest) = args.split_at(count(Kind::Positional));
        let (named, _) = rest.split_at(count(Kind::Named));
        let find = |kind: Kind| args.iter().find(|arg| kind_of(arg) == kind);
        Ok(CallArgsUnpack { pos, named, star: find(Kind::Args), star_star: find(Kind::KwArgs) })
    }
}

/// The kinds, in the order of a call.
#[derive(Clone, Copy, PartialEq, Eq, PartialOrd, Ord)]
enum Kind {
    Positional,
    Named,
    Args,
    KwArgs,
}

fn kind_of<P: AstPayload>(arg: &AstArgumentP<P>) -> Kind {
    match arg.node {
        ArgumentP::Positional(_) => Kind::Positional,
        ArgumentP::Named(..) => Kind::Named,
        ArgumentP::Args(_) => Kind::Args,
        ArgumentP::KwArgs(_) => Kind::KwArgs,
    }
}

/// The first argument that breaks a rule, with the rule.
fn test_order<P: AstPayload>(args: &[AstArgumentP<P>]) -> Result<(), (&'static str, Span)> {
    let mut last = Kind::Positional;
    let mut names = HashSet::new();
    for arg in args {
        let kind = kind_of(arg);
        let is_late = kind < last || kind == last && kind >= Kind::Args;
        match &arg.node {
            ArgumentP::Positional(_) if is_late => return Err(("positional argument after non positional", arg.span)),
            ArgumentP::Named(..) if is_late => return Err(("named argument after *args or **kwargs", arg.span)),
            ArgumentP::Args(_) if is_late => return Err(("Args array after another args or kwargs", arg.span)),
            ArgumentP::KwArgs(_) if is_late => return Err(("Multiple kwargs dictionary in arguments", arg.span)),
            ArgumentP::Named(name, _) if !names.insert(name.as_str()) => {
                return Err(("repeated named argument", name.span));
            }
            _ => last = kind,
        }
    }
    Ok(())
}
