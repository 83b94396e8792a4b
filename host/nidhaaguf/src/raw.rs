//! The library's calls as they are: any state, row and packet may be handed in.
//!
//! Most programs want [`crate::Director`], which keeps state and row together. This layer is for programs that keep them
//! elsewhere (in shared memory, say) or hand in states of their own making: a state and a row that don't fit together
//! get refusal 15 and are given back as they were. What of a state follows from its weights,
//! [`State::with_largest_weight_and_divisor`] fills in.
//!
//! ```
//! use nidhaaguf::raw;
//!
//! // a state that no setup has made
//! let answer = raw::tick(raw::State::default(), &mut [0; 5], 10);
//! assert_eq!(answer.refusal, 15);
//! assert_eq!(answer.state, raw::State::default());
//! ```

pub use crate::ffi::{burst, count, inbound, outbound, serve, set_up, set_weight, tick};
pub use crate::ffi::{traced_words, words, LentToServe};
pub use crate::structs::{Answer, Record, Served, Server, Servers, Service, State, Traced};
pub use crate::structs::{COUNTERS, LONGEST, PLACE, PLACES};
pub use crate::structs::{WORDS_PER_RECORD, WORDS_PER_SLOT, WORDS_PER_TRACED};
