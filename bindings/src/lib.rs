//! The Fever pacemaker and its simulator, proved in Rattle and linked from `libfever.a`.
//!
//! A run is opened from a [`Setup`] and moved by one [`Event`] after the other, alone or many in a call; tally and network are lent
//! by the caller. [`step`] moves one [`Processor`] alone. Lines of a schedule are read and written by [`read_line`], [`write_event`]
//! and [`write_setup`]. [`generate`] writes a whole schedule that a seed chooses, and [`generate_more`] goes on with it.
//! [`Run::traffic`] reports how many messages of each kind a run has sent, delivered and holds. [`pack`] carries a held run over from
//! a network of four words a message, the wide form, and [`unpack`] carries it back.
//!
//! [`open`], [`apply`], [`apply_all`], [`step`], [`generate`], [`generate_more`], [`Run::traffic`], [`pack`] and [`unpack`] name the
//! first check whose sentence holds where they refuse, [`read_line`] and the two that write a line answer `None`; what is refused has
//! changed nothing. A run of ticks that is stopped names the check that ended it and the ticks done.
//!
//! ```
//! use fever::{apply, apply_all, open, Answer, Event, Plan, Run, Setup};
//!
//! let plan = Plan { n: 4, delta: 2, gamma: 4, views: 6, k: 3 };
//! let (mut run, mut tally, mut network) = (Run::unopened(), [0; 24], [0; 32]);
//! let opened = open(&Setup::new(plan), &mut run, &mut tally, &mut network);
//! assert_eq!(opened, Answer::Done { ticks: 0, held: 8 });
//! let ticked = apply(&mut run, Event::Tick(3), &mut tally, &mut network);
//! assert_eq!(ticked, Answer::Done { ticks: 3, held: 8 });
//! assert_eq!((run.time(), run.clock(0), run.view(0)), (3, 3, 0));
//! let events = [Event::Settle, Event::Tick(3), Event::Settle];
//! let answers = apply_all(&mut run, &events, &mut tally, &mut network);
//! assert_eq!(answers[0], Answer::Done { ticks: 0, held: 8 });
//! assert_eq!(answers[1], Answer::Stopped { ticks: 2, held: 8, check: 16 });
//! assert_eq!(answers[2], Answer::Refused(15));
//! let report = run.traffic(&tally, &network).expect("the run is sound");
//! assert_eq!((report.sent.vote, report.delivered.vote, report.held.all()), (4, 0, 8));
//! ```
//!
//! The functions of [`raw`] are those of the archive, over plain words.

#![deny(missing_docs)]
#![deny(unsafe_code)]

mod carrying;
mod events;
mod lines;
mod loads;
mod processors;
#[allow(unsafe_code)]
pub mod raw;
mod runs;
#[cfg(test)]
mod tests;
mod traffic;

pub use carrying::{pack, unpack};
pub use events::{Event, Kind, Message};
pub use lines::{read_line, write_event, write_setup, Line};
pub use loads::{generate, generate_more, Generated, Load};
pub use processors::{step, Input, Processor, Sends, Stepped};
pub use runs::{apply, apply_all, open, Answer, Plan, Run, Setup};
pub use traffic::{Counts, Traffic};
