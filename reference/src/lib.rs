//! The Fever pacemaker step of one processor, and a simulator that moves n
//! such processors through a schedule of events.
//!
//! Everything here renders document 01, loads document 02's request 1/13,
//! traffic its request 2/13, newlines its request 3/13, the two forms of a
//! network its request 4/13 and k, the views per leader, its request 5/13;
//! comments quote the sentence a piece stands for.
//! The words of the code for the words of that page: a processor is one of the
//! n numbered parties, the tally holds what was entered, heard and formed per
//! view, the network holds the messages sent and not yet delivered, `faulty`
//! is the 64-bit number marking the faulty processors, and `gst` is the
//! settling time.
//!
//! Every function is total: it answers for any words handed in, and a refusal
//! changes nothing.

#![deny(missing_docs)]
#![forbid(unsafe_code)]

mod apply;
mod carry;
pub mod check;
mod effect;
mod form;
mod generator;
mod limits;
mod load;
mod message;
mod network;
mod newline;
mod opening;
mod plan;
mod print;
mod processor;
mod reader;
mod run;
mod session;
mod set;
mod soundness;
mod state;
mod stream;
mod tally;
mod tick;
mod traffic;
mod watch;
mod writer;

pub use apply::{apply, apply_in, apply_sound};
pub use carry::{pack, target_fits, unpack};
pub use form::{Form, Packed, Stored, Wide};
pub use generator::{run_generator, Ended};
pub use load::{generate, generate_more, Load, Piece};
pub use message::{Event, Message};
pub use newline::{before_newline, has_newline};
pub use opening::{open, open_in};
pub use plan::Plan;
pub use processor::{step, Input, Processor, Stepped};
pub use reader::{read_line, Reading, LONGEST_LINE};
pub use run::{Answer, Run, Setup};
pub use session::{Session, NETWORK_WORDS, TALLY_WORDS};
pub use soundness::{is_sound, is_sound_but_for_time, is_sound_in};
pub use stream::{report_traffic, simulate, Stream};
pub use traffic::{traffic, ByKind, Sums, Traffic};
pub use watch::Watch;
pub use writer::{write_event, write_setup};
