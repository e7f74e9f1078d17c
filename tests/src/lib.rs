//! Cases for the exported calls. The sentences of documents 01 and 02 are evaluated here input by input
//! and point by point, and every answer of a call is compared with that evaluation.

pub mod c_kronecker;
pub mod c_search;
pub mod calls;
pub mod cases;
pub mod check;
pub mod class;
pub mod elimination;
pub mod evaluator;
pub mod examples;
pub mod family;
pub mod kronecker;
pub mod lent;
pub mod marked;
pub mod outputs;
pub mod program;
pub mod seeded;
pub mod text;
pub mod text_program;
pub mod timing;
pub mod words;
