#![allow(dead_code, unused_imports, unused_variables)]
//! The compiled calls of this repository, through `serve`, against numbat's own solver. See ../README.md.
extern crate narrow_ratio as num_rational;

// ---- numbat's files, as they are (orig is a link to the checkout's numbat/src)
#[path = "../orig/arithmetic.rs"]
pub mod arithmetic;
#[path = "../orig/ast.rs"]
pub mod ast;
#[path = "../orig/decorator.rs"]
pub mod decorator;
#[path = "../orig/dimension.rs"]
pub mod dimension;
#[path = "../orig/markup.rs"]
pub mod markup;
#[path = "../orig/pretty_print.rs"]
pub mod pretty_print;
#[path = "../orig/product.rs"]
pub mod product;
#[path = "../orig/registry.rs"]
pub mod registry;
#[path = "../orig/span.rs"]
pub mod span;
#[path = "../orig/traversal.rs"]
pub mod traversal;
#[path = "../orig/type_variable.rs"]
pub mod type_variable;
#[path = "../orig/typed_ast.rs"]
pub mod typed_ast;
// ---- declares numbat's files of typechecker/
pub mod typechecker;
// ---- stand-ins for parts of numbat that take no part in solving
mod standins;
pub use registry::{BaseRepresentation, BaseRepresentationFactor};
pub use standins::{datetime, number, prefix, prefix_parser, resolver, suggestion, unit};
pub use typed_ast::{Statement, Type};
// ---- ours
mod cases;
mod expect;
mod random;
mod records;
mod run;
mod text;
mod wire;

fn main() {
    let args: Vec<String> = std::env::args().skip(1).collect();
    expect::quiet_panics();
    // the deepest damaged lists recurse deep
    let t = std::thread::Builder::new().stack_size(1 << 30).spawn(move || run::main(&args)).unwrap();
    match t.join() {
        Ok(code) => std::process::exit(code),
        Err(_) => std::process::exit(3),
    }
}
