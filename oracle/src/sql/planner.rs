//! The original's plans. Planning and optimizing are left out: the oracle builds its own plans.

include!(concat!(env!("OUT_DIR"), "/planner.rs"));

pub use plan::{Aggregate, Direction, Node, Plan};

/// Stand-in: no plan is optimized.
mod optimizer {
    use super::Node;
    use crate::error::Result;

    pub trait Optimizer: Sync {
        fn optimize(&self, node: Node) -> Result<Node>;
    }

    pub static OPTIMIZERS: [&dyn Optimizer; 0] = [];
}

/// Stand-in: there are no statements to plan.
mod planner {
    use super::Plan;
    use crate::error::Result;
    use crate::sql::engine::Catalog;
    use crate::sql::parser::ast;

    pub struct Planner<'a, C: Catalog> {
        _catalog: &'a C,
    }

    impl<'a, C: Catalog> Planner<'a, C> {
        pub fn new(catalog: &'a C) -> Self {
            Self { _catalog: catalog }
        }

        pub fn build(&self, statement: ast::Statement) -> Result<Plan> {
            match statement {}
        }
    }
}
