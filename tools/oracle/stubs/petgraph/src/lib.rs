//! Stands in for petgraph: the types that `portal/mod.rs` names. Route finding is not compared, so
//! no method has a body.

#[derive(Debug, Clone, Copy)]
pub enum Directed {}

#[derive(Debug, Clone, Copy)]
pub enum Undirected {}

pub mod graph {
    #[derive(Debug, Default, Clone, Copy, PartialEq, Eq, PartialOrd, Ord)]
    pub struct NodeIndex<Ix>(Ix);

    impl<Ix> From<Ix> for NodeIndex<Ix> {
        fn from(index: Ix) -> Self {
            NodeIndex(index)
        }
    }
}

pub mod stable_graph {
    use crate::graph::NodeIndex;
    use std::marker::PhantomData;

    #[derive(Debug, Clone)]
    pub struct StableGraph<N, E, Ty, Ix>(PhantomData<(N, E, Ty, Ix)>);

    impl<N, E, Ty, Ix> Default for StableGraph<N, E, Ty, Ix> {
        fn default() -> Self {
            StableGraph(PhantomData)
        }
    }

    impl<N, E, Ty, Ix> StableGraph<N, E, Ty, Ix> {
        pub fn add_node(&mut self, _weight: N) -> NodeIndex<Ix> {
            unimplemented!("route finding")
        }
        pub fn remove_node(&mut self, _node: NodeIndex<Ix>) -> Option<N> {
            unimplemented!("route finding")
        }
        pub fn contains_edge(&self, _a: NodeIndex<Ix>, _b: NodeIndex<Ix>) -> bool {
            unimplemented!("route finding")
        }
        pub fn add_edge(&mut self, _a: NodeIndex<Ix>, _b: NodeIndex<Ix>, _weight: E) {
            unimplemented!("route finding")
        }
    }
}

pub mod algo {
    pub use astar::astar;

    pub mod astar {
        use crate::graph::NodeIndex;
        use crate::stable_graph::StableGraph;

        pub struct EdgeReference<'a, E>(&'a E);

        impl<'a, E> EdgeReference<'a, E> {
            pub fn weight(&self) -> &'a E {
                self.0
            }
        }

        pub fn astar<N, E, Ty, Ix, K>(
            _graph: &StableGraph<N, E, Ty, Ix>,
            _start: NodeIndex<Ix>,
            _is_goal: impl FnMut(NodeIndex<Ix>) -> bool,
            _edge_cost: impl FnMut(EdgeReference<'_, E>) -> K,
            _estimate_cost: impl FnMut(NodeIndex<Ix>) -> K,
        ) -> Option<(K, Vec<NodeIndex<Ix>>)> {
            unimplemented!("route finding")
        }
    }
}
