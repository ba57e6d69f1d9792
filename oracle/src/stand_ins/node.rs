//! Nodes: the variants that the algebra tells apart, and `tree.rs`'s ways of
//! building them. Inlining into a preceding push is left out: it concerns
//! primitives that the algebra neither reads nor writes.

use std::{
    mem::{swap, take},
    ops::{Deref, Index},
    slice,
    sync::Arc,
};

use ecow::{EcoVec, eco_vec};

use super::{
    ImplPrimitive, Primitive, Signature, Value, check::SigCheckError, check::nodes_sig, pairs,
    steps,
};

#[derive(Debug, Clone, PartialEq)]
pub enum Node {
    Run(EcoVec<Node>),
    Call(Function, usize),
    Push(Value, usize),
    Prim(Primitive, usize),
    ImplPrim(ImplPrimitive, usize),
    Mod(Primitive, EcoVec<SigNode>, usize),
    ImplMod(ImplPrimitive, EcoVec<SigNode>, usize),
    CustomInverse(Arc<CustomInverse>, usize),
    PushUnder(usize, usize),
    CopyToUnder(usize, usize),
    PopUnder(usize, usize),
    /// Stands for all variants that the algebra doesn't tell apart.
    Label(String, usize),
}

#[derive(Debug, Clone, PartialEq)]
pub struct SigNode {
    pub node: Node,
    pub sig: Signature,
}

#[derive(Debug, Clone, PartialEq)]
pub struct CustomInverse {
    pub normal: Result<SigNode, String>,
    pub is_obverse: bool,
}

#[derive(Debug, Clone, PartialEq)]
pub struct Function;

/// Functions and spans of a program. A call is handed over as a run of its
/// function's nodes, so there are no functions; the one span is what written
/// nodes point to.
#[derive(Debug)]
pub struct Assembly {
    pub spans: Vec<()>,
}

impl Default for Assembly {
    fn default() -> Self {
        Assembly { spans: vec![()] }
    }
}

impl Index<&Function> for Assembly {
    type Output = Node;
    fn index(&self, _function: &Function) -> &Node {
        unreachable!("no call is handed over")
    }
}

impl SigNode {
    pub fn new(sig: impl Into<Signature>, node: Node) -> Self {
        Self {
            node,
            sig: sig.into(),
        }
    }
}

impl Default for Node {
    fn default() -> Self {
        Self::empty()
    }
}

impl Node {
    pub const fn empty() -> Self {
        Self::Run(EcoVec::new())
    }
    /// Pushes keep what they are handed: whether it was a real or a complex
    /// number, and the sign of a zero.
    pub fn new_push(val: impl Into<Value>, span: usize) -> Self {
        Self::Push(val.into(), span)
    }
    pub fn as_slice(&self) -> &[Node] {
        if let Node::Run(nodes) = self {
            nodes
        } else {
            slice::from_ref(self)
        }
    }
    fn as_vec(&mut self) -> &mut EcoVec<Node> {
        if !matches!(self, Node::Run(_)) {
            *self = Node::Run(eco_vec![take(self)]);
        }
        match self {
            Node::Run(nodes) => nodes,
            _ => unreachable!("made a run above"),
        }
    }
    pub fn push(&mut self, mut node: Node) {
        if let Node::Run(nodes) = self {
            if nodes.is_empty() {
                *self = node;
            } else {
                match node {
                    Node::Run(other) => nodes.extend(other),
                    node => nodes.push(node),
                }
            }
        } else if let Node::Run(nodes) = &node {
            if !nodes.is_empty() {
                swap(self, &mut node);
                self.as_vec().insert(0, node);
            }
        } else {
            self.as_vec().push(node);
        }
    }
    /// The algebra asks for it as it begins a step, which is counted.
    pub fn span(&self) -> Option<usize> {
        steps::come_to(self);
        pairs::come_to(self);
        self.first_span()
    }
    fn first_span(&self) -> Option<usize> {
        match self {
            Node::Run(nodes) => nodes.iter().find_map(Node::first_span),
            Node::Call(_, span)
            | Node::Push(_, span)
            | Node::Prim(_, span)
            | Node::ImplPrim(_, span)
            | Node::Mod(_, _, span)
            | Node::ImplMod(_, _, span)
            | Node::CustomInverse(_, span)
            | Node::PushUnder(_, span)
            | Node::CopyToUnder(_, span)
            | Node::PopUnder(_, span)
            | Node::Label(_, span) => Some(*span),
        }
    }
    pub fn sig(&self) -> Result<Signature, SigCheckError> {
        nodes_sig(self.as_slice())
    }
    pub fn sig_node(self) -> Result<SigNode, SigCheckError> {
        let sig = self.sig()?;
        Ok(SigNode::new(sig, self))
    }
}

impl FromIterator<Node> for Node {
    fn from_iter<T: IntoIterator<Item = Node>>(iter: T) -> Self {
        let mut iter = iter.into_iter();
        let Some(mut node) = iter.next() else {
            return Node::default();
        };
        for n in iter {
            node.push(n);
        }
        node
    }
}

impl Deref for Node {
    type Target = [Node];
    fn deref(&self) -> &Self::Target {
        self.as_slice()
    }
}
