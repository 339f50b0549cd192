impl<S: State + Clone, SP: StateSpace<StateType = S>, G: Goal<S>> RRT<S, SP, G> {
    /// The private tree: each node's state and its parent's index.
    pub fn table(&self) -> Vec<(S, Option<usize>)> {
        self.tree.iter().map(|node| (node.state.clone(), node.parent_index)).collect()
    }
}
