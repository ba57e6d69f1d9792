//! The signature check of `check.rs`, for the nodes that the algebra writes,
//! with its limit on depth.

use std::cell::Cell;

use super::{Node, Primitive, Signature};

/// `MAX_NODE_DEPTH` where debug assertions are on.
pub const DEBUG_DEPTH: usize = 26;
/// `MAX_NODE_DEPTH` of a release build.
pub const RELEASE_DEPTH: usize = 50;

thread_local! {
    /// `None` lifts the limit, so that longer lists can be compared.
    static DEPTH_LIMIT: Cell<Option<usize>> = const { Cell::new(None) };
}

pub fn depth_limit() -> Option<usize> {
    DEPTH_LIMIT.get()
}

/// Do something on this thread under another limit than the lifted one.
pub fn with_depth_limit<T>(limit: Option<usize>, action: impl FnOnce() -> T) -> T {
    struct Restore(Option<usize>);
    impl Drop for Restore {
        fn drop(&mut self) {
            DEPTH_LIMIT.set(self.0);
        }
    }
    let _restore = Restore(DEPTH_LIMIT.replace(limit));
    action()
}

#[derive(Debug, Clone, PartialEq, Eq)]
pub struct SigCheckError(pub String);

impl From<&str> for SigCheckError {
    fn from(message: &str) -> Self {
        SigCheckError(message.to_string())
    }
}

pub fn nodes_sig(nodes: &[Node]) -> Result<Signature, SigCheckError> {
    let mut env = VirtualEnv::default();
    env.nodes(nodes)?;
    Ok(env.stack.sig())
}

/// Emulates the runtime, but only keeps track of the stack's height.
#[derive(Default)]
struct VirtualEnv {
    stack: Stack,
    node_depth: usize,
}

#[derive(Default)]
struct Stack {
    height: i32,
    min_height: usize,
}

impl Stack {
    fn pop_n(&mut self, n: usize) {
        self.height -= n as i32;
        self.min_height = self.min_height.max((-self.height).max(0) as usize);
    }
    fn push_n(&mut self, n: usize) {
        self.height += n as i32;
    }
    fn handle_args_outputs(&mut self, args: usize, outputs: usize) {
        self.pop_n(args);
        self.push_n(outputs);
    }
    fn sig(&self) -> Signature {
        Signature::new(
            self.min_height,
            (self.height + self.min_height as i32).max(0) as usize,
        )
    }
}

impl VirtualEnv {
    fn nodes(&mut self, nodes: &[Node]) -> Result<(), SigCheckError> {
        nodes.iter().try_for_each(|node| self.node(node))
    }
    fn node(&mut self, node: &Node) -> Result<(), SigCheckError> {
        if depth_limit().is_some_and(|limit| self.node_depth > limit) {
            return Err("Function is too complex".into());
        }
        self.node_depth += 1;
        match node {
            Node::Run(nodes) => self.nodes(nodes)?,
            Node::Push(..) => self.stack.push_n(1),
            Node::Prim(prim, _) => self.primitive(prim.args(), prim.outputs())?,
            Node::ImplPrim(prim, _) => self.primitive(prim.args(), prim.outputs())?,
            Node::Mod(Primitive::On, bodies, _) => {
                let [body] = &bodies[..] else {
                    return Err("Expected 1 operand".into());
                };
                self.stack.handle_args_outputs(1, 1);
                self.node(&body.node)?;
                self.stack.push_n(1);
            }
            _ => return Err("The algebra writes no such node".into()),
        }
        self.node_depth -= 1;
        Ok(())
    }
    fn primitive(
        &mut self,
        args: Option<usize>,
        outputs: Option<usize>,
    ) -> Result<(), SigCheckError> {
        let args = args.ok_or("indeterminate args")?;
        let outputs = outputs.ok_or("indeterminate outputs")?;
        self.stack.handle_args_outputs(args, outputs);
        Ok(())
    }
}
