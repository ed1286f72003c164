//! Looks at the graph that each application leaves: both ends of every live edge are live.

use second::observer::{Event, Observer};

#[derive(Default)]
pub struct Ends {
    /// The applications looked at.
    pub applications: u64,
}

impl Observer for Ends {
    fn sees(&mut self, event: Event) {
        if let Event::Applied(host) = event {
            self.applications += 1;
            let ends = host.both_ends_of_live_edges_are_live();
            assert_eq!(ends, Ok(()), "an application left {host:#?}");
        }
    }
}
