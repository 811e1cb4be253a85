//! The parameters of a function, and how each is passed.
use crate::codemap::{CodeMap, Span, Spanned};
use crate::error::{Error, ErrorKind, Fault};
use crate::syntax::ast::{AstAssignIdentP, AstExprP, AstParameterP, AstPayload, AstTypeExprP, ParameterP};
use std::collections::HashSet;
use std::ops::Range;

/// How a parameter without `*` is passed.
#[derive(Clone, Copy, Debug, PartialEq, Eq)]
pub enum DefRegularParamMode {
    /// By position only: it is before a `/`.
    PosOnly,
    /// By position or by name.
    PosOrName,
    /// By name only: it is after a `*`.
    NameOnly,
}

/// What kind of parameter it is.
#[derive(Debug)]
pub enum DefParamKind<'a, P: AstPayload> {
    /// One without `*`, with its default value.
    Regular(DefRegularParamMode, Option<&'a AstExprP<P>>),
    /// `*name`
    Args,
    /// `**name`
    Kwargs,
}

/// A parameter that has a name.
#[derive(Debug)]
pub struct DefParam<'a, P: AstPayload> {
    /// Its name.
    pub ident: &'a AstAssignIdentP<P>,
    /// How it is passed.
    pub kind: DefParamKind<'a, P>,
    /// Its type.
    pub ty: Option<&'a AstTypeExprP<P>>,
}

/// Which parameters are passed how, by their indices among those that have a name.
#[derive(Clone, Copy, Debug, Default, PartialEq, Eq, PartialOrd, Ord, Hash)]
pub struct DefParamIndices {
    /// How many are passed by position: the first ones.
    pub num_positional: u32,
    /// How many of those are not passed by name: the first ones.
    pub num_positional_only: u32,
    /// The one with `*`.
    pub args: Option<u32>,
    /// The one with `**`: the last.
    pub kwargs: Option<u32>,
}

impl DefParamIndices {
    /// Those that are passed by position only.
    pub fn pos_only(&self) -> Range<usize> {
        0..self.num_positional_only as usize
    }

    /// Those that are passed by position or by name.
    pub fn pos_or_named(&self) -> Range<usize> {
        self.num_positional_only as usize..self.num_positional as usize
    }

    /// Those that are passed by name only, of so many parameters.
    pub fn named_only(&self, param_count: usize) -> Range<usize> {
        let begin = self.args.map_or(self.num_positional as usize, |args| args as usize + 1);
        begin..self.kwargs.map_or(param_count, |kwargs| kwargs as usize)
    }
}

/// The parameters that have a name, and how each is passed.
#[derive(Debug)]
pub struct DefParams<'a, P: AstPayload> {
    /// The parameters, without `/` and `*`.
    pub params: Vec<Spanned<DefParam<'a, P>>>,
    /// Which are passed how.
    pub indices: DefParamIndices,
}

impl<'a, P: AstPayload> DefParams<'a, P> {
    /// The parameters of a function or a lambda.
    ///
    /// # Errors
    ///
    /// [`ErrorKind::Params`]: the first parameter that breaks a rule. A function that was parsed has none.
    pub fn unpack(ast_params: &'a [AstParameterP<P>], codemap: &CodeMap) -> Result<DefParams<'a, P>, Error> {
        let unpacked = Unpacking::new(ast_params).and_then(|unpacking| unpacking.all(ast_params));
        unpacked.map_err(|(message, span)| {
            Fault { kind: ErrorKind::Params, message: message.to_owned(), span: Some(span) }.in_file(codemap)
        })
    }
}

/// A rule that a parameter breaks, and where it is.
type Broken = (&'static str, Span);

/// What comes before a parameter.
#[derive(Clone, Copy, PartialEq, Eq, PartialOrd, Ord)]
enum Stage {
    /// A `/` comes after it.
    PosOnly,
    PosOrName,
    /// A `*` came before it.
    NameOnly,
    /// `**kwargs` came before it.
    End,
}

struct Unpacking<'a, P: AstPayload> {
    stage: Stage,
    names: HashSet<&'a str>,
    has_default: bool,
    unpacked: DefParams<'a, P>,
}

impl<'a, P: AstPayload> Unpacking<'a, P> {
    fn new(params: &[AstParameterP<P>]) -> Result<Self, Broken> {
        let slash = params.iter().position(|param| matches!(param.node, ParameterP::Slash));
        let stage = match slash {
            Some(0) => return Err(("`/` cannot be first parameter", params[0].span)),
            Some(_) => Stage::PosOnly,
            None => Stage::PosOrName,
        };
        let unpacked = DefParams { params: Vec::with_capacity(params.len()), indices: DefParamIndices::default() };
        Ok(Unpacking { stage, names: HashSet::new(), has_default: false, unpacked })
    }

    fn all(mut self, params: &'a [AstParameterP<P>]) -> Result<DefParams<'a, P>, Broken> {
        if u32::try_from(params.len()).is_err() {
            return Err(("Too many parameters", Span::merge_all(params.iter().map(|param| param.span))));
        }
        params.iter().try_for_each(|param| self.add(param))?;
        for (at, star) in params.iter().enumerate().filter(|(_, param)| matches!(param.node, ParameterP::NoArgs)) {
            match params.get(at + 1) {
                None => return Err(("`*` parameter must not be last", star.span)),
                Some(Spanned { node: ParameterP::Normal(..), .. }) => {}
                Some(next) => return Err(("`*` must be followed by named parameter", next.span)),
            }
        }
        Ok(self.unpacked)
    }

    fn add(&mut self, param: &'a AstParameterP<P>) -> Result<(), Broken> {
        if param.ident().is_some_and(|name| !self.names.insert(name.ident.as_str())) {
            return Err(("duplicated parameter name", param.span));
        }
        let index = self.unpacked.params.len() as u32;
        match &param.node {
            ParameterP::Normal(..) => return self.add_regular(param),
            ParameterP::Slash if self.stage > Stage::PosOnly => return Err(("Multiple `/` in parameters", param.span)),
            ParameterP::Slash => {
                self.stage = Stage::PosOrName;
                self.unpacked.indices.num_positional_only = index;
            }
            ParameterP::NoArgs | ParameterP::Args(..) if self.stage > Stage::PosOrName => {
                return Err(("Args parameter after another args or kwargs parameter", param.span));
            }
            ParameterP::NoArgs => self.stage = Stage::NameOnly,
            ParameterP::Args(..) => {
                self.stage = Stage::NameOnly;
                self.unpacked.indices.args = Some(index);
                self.push(param, DefParamKind::Args);
            }
            ParameterP::KwArgs(..) if self.stage == Stage::End => {
                return Err(("Multiple kwargs dictionary in parameters", param.span));
            }
            ParameterP::KwArgs(..) => {
                self.stage = Stage::End;
                self.unpacked.indices.kwargs = Some(index);
                self.push(param, DefParamKind::Kwargs);
            }
        }
        Ok(())
    }

    fn add_regular(&mut self, param: &'a AstParameterP<P>) -> Result<(), Broken> {
        let (_, _, default) = param.split();
        let mode = match self.stage {
            Stage::PosOnly => DefRegularParamMode::PosOnly,
            Stage::PosOrName => DefRegularParamMode::PosOrName,
            Stage::NameOnly => DefRegularParamMode::NameOnly,
            Stage::End => return Err(("Parameter after kwargs", param.span)),
        };
        if default.is_none() && self.has_default && self.stage < Stage::NameOnly {
            return Err(("positional parameter after non positional", param.span));
        }
        self.has_default |= default.is_some();
        if self.stage < Stage::NameOnly {
            self.unpacked.indices.num_positional += 1;
        }
        self.push(param, DefParamKind::Regular(mode, default));
        Ok(())
    }

    fn push(&mut self, param: &'a AstParameterP<P>, kind: DefParamKind<'a, P>) {
        if let (Some(ident), ty, _) = param.split() {
            self.unpacked.params.push(Spanned { node: DefParam { ident, kind, ty }, span: param.span });
        }
    }
}
