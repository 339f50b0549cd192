//! The crate that oxmpl's four planner files take themselves to be in. They are compiled where they lie, unchanged, in the
//! folder that PLANNERS names at the build; each is followed only by an accessor for its private tables. What they call in
//! `crate::base` and `crate::time` is stood in for here.

pub mod base;
pub mod mount;
pub mod tape;
pub mod time;

pub mod rrt {
    include!(concat!(env!("PLANNERS"), "/rrt.rs"));
    include!("accessors/rrt.rs");
}

pub mod rrt_connect {
    include!(concat!(env!("PLANNERS"), "/rrt_connect.rs"));
    include!("accessors/rrt_connect.rs");
}

pub mod rrt_star {
    include!(concat!(env!("PLANNERS"), "/rrt_star.rs"));
    include!("accessors/rrt_star.rs");
}

pub mod prm {
    include!(concat!(env!("PLANNERS"), "/prm.rs"));
    include!("accessors/prm.rs");
}
