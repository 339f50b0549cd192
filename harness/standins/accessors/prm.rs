impl<S: State + Clone, SP: StateSpace<StateType = S>, G: Goal<S>> PRM<S, SP, G> {
    /// The private roadmap: each milestone's state and its neighbours' indices, in the order in which they stand.
    pub fn table(&self) -> Vec<(S, Vec<usize>)> {
        self.roadmap.iter().map(|node| (node.state.clone(), node.edges.clone())).collect()
    }
}
