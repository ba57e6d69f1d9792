//! Hand-written stand-ins for what the algebra imports: only what it uses, and
//! each part as the source in `docs/src` has it where that source is at hand.

pub mod check;
pub mod node;
pub mod pairs;
pub mod primitive;
pub mod steps;
pub mod value;

#[rustfmt::skip]
#[path = "../../../docs/src/parser/src/signature.rs"]
pub mod signature;

pub use check::{DEBUG_DEPTH, RELEASE_DEPTH, depth_limit, with_depth_limit};
pub use node::{Assembly, CustomInverse, Function, Node, SigNode};
pub use primitive::{ImplPrimitive, Primitive};
pub use signature::Signature;
pub use value::{Array, Value};
