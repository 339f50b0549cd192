impl<S: State + Clone, SP: StateSpace<StateType = S>, G: Goal<S>> RRTStar<S, SP, G> {
    /// The private tree: each node's state, its parent's index and its cost.
    pub fn table(&self) -> Vec<(S, Option<usize>, f64)> {
        self.tree.iter().map(|node| (node.state.clone(), node.parent_index, node.cost)).collect()
    }
}
