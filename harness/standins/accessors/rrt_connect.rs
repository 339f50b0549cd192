impl<S: State + Clone, SP: StateSpace<StateType = S>, G: Goal<S>> RRTConnect<S, SP, G> {
    /// The private start tree: each node's state and its parent's index.
    pub fn start_table(&self) -> Vec<(S, Option<usize>)> {
        self.start_tree.iter().map(|node| (node.state.clone(), node.parent_index)).collect()
    }

    /// The private goal tree, likewise.
    pub fn goal_table(&self) -> Vec<(S, Option<usize>)> {
        self.goal_tree.iter().map(|node| (node.state.clone(), node.parent_index)).collect()
    }
}
