//! The two numbers of a state that follow from its weights.

use crate::raw::{self, Servers, State, WORDS_PER_SLOT};

impl State {
    /// The same state with the largest weight and the divisor that its weights give: for one that was kept without these two.
    ///
    /// The library's own setup works them out. Where it refuses the settings the state stays as it is, and is unsound anyway.
    ///
    /// ```
    /// use nidhaaguf::{Director, Protocol, Refusal, Scheduler, Settings};
    ///
    /// let settings = Settings::new("192.0.2.10:53".parse()?, Protocol::Udp, Scheduler::WeightedRoundRobin)
    ///     .server("10.1.0.5:53".parse()?, 6)
    ///     .server("10.1.0.6:53".parse()?, 4);
    /// let director = Director::set_up(&settings, 16)?;
    /// let (mut state, row) = (*director.parts().0, director.parts().1.to_vec());
    /// assert_eq!((state.largest_weight, state.weight_divisor), (6, 2));
    ///
    /// (state.largest_weight, state.weight_divisor) = (0, 0);
    /// assert_eq!(Director::resume(state, row.clone()), Err(Refusal::Unsound));
    /// assert_eq!(Director::resume(state.with_largest_weight_and_divisor(), row), Ok(director));
    /// # Ok::<(), Box<dyn std::error::Error>>(())
    /// ```
    pub fn with_largest_weight_and_divisor(self) -> State {
        let (servers, mut row) = (Servers { server: self.servers }, [0; WORDS_PER_SLOT]);
        // accepted, it has no connections: so the two numbers alone are taken; refused, it is the state that was handed in
        let set_up = raw::set_up(self, self.service, servers, &mut row).state;
        let State { largest_weight, weight_divisor, .. } = set_up;
        State { largest_weight, weight_divisor, ..self }
    }
}
