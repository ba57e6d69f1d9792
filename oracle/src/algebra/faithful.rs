//! A second writer beside the Rust's: its `expr_to_node` with one change. A
//! function's argument is written by the same loop, started afresh on an empty
//! list, and then appended; the Rust goes on with the list so far. The text
//! below is the Rust's but for `argument`, and a test holds it against it.

use super::*;

/// A sum as a list that means what the sum says.
pub(super) fn expr_to_node(expr: Expr, any_complex: bool, asm: &Assembly) -> Node {
    let span = asm.spans.len() - 1;
    let mut node = Node::empty();
    fn argument(node: &mut Node, expr: Expr, any_complex: bool, span: usize) {
        let mut apart = Node::empty();
        recur(&mut apart, expr, any_complex, span);
        node.push(apart);
    }
    fn recur(node: &mut Node, expr: Expr, any_complex: bool, span: usize) {
        let mut identity = false;
        for (term, coef) in expr.0 {
            if coef == ZERO {
                continue;
            }
            let is_first_term = !identity && node.is_empty();
            let mut mul_coef = coef != ONE;
            if !is_first_term {
                *node = if node.is_empty() {
                    Prim(Dup, span)
                } else {
                    Mod(On, eco_vec![take(node).sig_node().unwrap()], span)
                };
            }
            match term {
                Term::X(pow) => match pow {
                    0.0 => {
                        node.push(Node::new_push(0, span));
                        node.push(Prim(Mul, span));
                        node.push(if any_complex {
                            Node::new_push(coef, span)
                        } else {
                            Node::new_push(coef.into_real().unwrap_or(f64::NAN), span)
                        });
                        node.push(Prim(Add, span));
                        mul_coef = false;
                    }
                    0.5 => node.push(Prim(Sqrt, span)),
                    1.0 => identity = true,
                    2.0 => {
                        node.push(Prim(Dup, span));
                        node.push(Prim(Mul, span));
                    }
                    _ => {
                        node.push(Node::new_push(pow, span));
                        node.push(Prim(Pow, span));
                    }
                },
                Term::Div(expr) if coef == Complex::ONE => {
                    argument(node, expr, any_complex, span);
                    node.push(Prim(Reciprocal, span));
                }
                Term::Div(expr) => {
                    argument(node, expr, any_complex, span);
                    node.push(Node::new_push(1.0, span));
                    node.push(Prim(Flip, span));
                    node.push(Prim(Div, span));
                }
                Term::Exp(expr) => {
                    argument(node, expr, any_complex, span);
                    node.push(Prim(Exp, span));
                }
                Term::Log(base, expr) => {
                    argument(node, expr, any_complex, span);
                    node.push(Node::new_push(base, span));
                    node.push(ImplPrim(Log, span));
                }
                Term::Sin(expr) => {
                    argument(node, expr, any_complex, span);
                    node.push(Prim(Sin, span));
                }
                Term::Cos(expr) => {
                    argument(node, expr, any_complex, span);
                    node.push(Prim(Cos, span));
                }
                Term::SinH(expr) => {
                    argument(node, expr, any_complex, span);
                    node.push(Prim(SinH, span));
                }
                Term::CosH(expr) => {
                    argument(node, expr, any_complex, span);
                    node.push(Prim(CosH, span));
                }
            }
            if mul_coef {
                node.push(if any_complex {
                    Node::new_push(coef, span)
                } else {
                    Node::new_push(coef.into_real().unwrap_or(f64::NAN), span)
                });
                node.push(Prim(Mul, span));
            }
            if !is_first_term {
                node.push(Prim(Add, span));
            }
        }
        if node.is_empty() {
            if identity {
                node.push(Prim(Identity, span))
            } else {
                node.push(Node::new_push(0, span));
                node.push(Prim(Mul, span));
            }
        }
    }
    recur(&mut node, expr, any_complex, span);
    node
}
