//! Stands in for oxmpl's `base`: the traits and records that the four planner files name, with what they call and no more.

pub mod error {
    /// The sampler has nothing to hand out.
    #[derive(Debug)]
    pub struct StateSamplingError;

    #[derive(Debug)]
    pub enum PlanningError {
        Timeout,
        NoSolutionFound,
        PlannerUninitialised,
        InvalidStartState,
        UnsampledStateSpace,
        Sampling(StateSamplingError),
    }

    impl From<StateSamplingError> for PlanningError {
        fn from(error: StateSamplingError) -> PlanningError {
            PlanningError::Sampling(error)
        }
    }
}

pub mod state {
    pub trait State: Clone {}
}

pub mod space {
    use super::{error::StateSamplingError, state::State};
    use rand::rngs::StdRng;

    pub trait StateSpace {
        type StateType: State;

        fn distance(&self, first: &Self::StateType, second: &Self::StateType) -> f64;
        fn interpolate(&self, from: &Self::StateType, to: &Self::StateType, t: f64, out: &mut Self::StateType);
        fn sample_uniform(&self, rng: &mut StdRng) -> Result<Self::StateType, StateSamplingError>;
        fn get_longest_valid_segment_length(&self) -> f64;
    }
}

pub mod goal {
    use super::{error::StateSamplingError, state::State};
    use rand::rngs::StdRng;

    pub trait Goal<S: State> {
        fn is_satisfied(&self, state: &S) -> bool;
    }

    pub trait GoalSampleableRegion<S: State>: Goal<S> {
        fn sample_goal(&self, rng: &mut StdRng) -> Result<S, StateSamplingError>;
    }
}

pub mod validity {
    use super::state::State;

    pub trait StateValidityChecker<S: State> {
        fn is_valid(&self, state: &S) -> bool;
    }
}

pub mod problem_definition {
    use super::{goal::Goal, space::StateSpace, state::State};
    use std::sync::Arc;

    pub struct ProblemDefinition<S: State, SP: StateSpace<StateType = S>, G: Goal<S>> {
        pub space: Arc<SP>,
        pub start_states: Vec<S>,
        pub goal: Arc<G>,
    }
}

pub mod planner {
    use super::{
        error::PlanningError, goal::Goal, problem_definition::ProblemDefinition, space::StateSpace, state::State,
        validity::StateValidityChecker,
    };
    use crate::time::Duration;
    use std::sync::Arc;

    pub struct Path<S: State>(pub Vec<S>);

    pub struct PlannerConfig {
        pub seed: Option<u64>,
    }

    pub trait Planner<S: State, SP: StateSpace<StateType = S>, G: Goal<S>> {
        fn setup(
            &mut self,
            problem_def: Arc<ProblemDefinition<S, SP, G>>,
            validity_checker: Arc<dyn StateValidityChecker<S>>,
        );
        fn solve(&mut self, timeout: Duration) -> Result<Path<S>, PlanningError>;
    }
}
