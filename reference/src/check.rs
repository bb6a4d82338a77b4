//! The numbers of the checks, in their order.

/// "The line is not one of the forms above; an event handed in has 0 ticks or
/// a kind its form lacks; or a line to be written has no form (n is 0 or above
/// 64) or too few lent bytes."
pub const NO_FORM: u64 = 1;
/// "n is outside 4 to 64."
pub const PROCESSORS: u64 = 2;
/// "`delta` or `gamma` is outside its range", which for `gamma` follows k.
pub const DELAY_OR_SLOT: u64 = 3;
/// k or `views` is outside its range, or `views` no multiple of k.
pub const VIEW_LIMIT: u64 = 4;
/// "`faulty` has a bit at n or above, or more than t ones."
pub const TOO_FAULTY: u64 = 5;
/// "The tally has fewer than 4 times `views` words, or the network fewer than"
/// 4n "or more than 524,288."
pub const BUFFERS: u64 = 6;
/// A correct start clock is k times `gamma` or more.
pub const START_CLOCK: u64 = 7;
/// "A correct clock c has fewer than t+1 correct clocks c', its own counted,
/// with c' + `gamma` ≥ c."
pub const CLOCK_CONDITION: u64 = 8;
/// "The run handed in is unsound."
pub const UNSOUND: u64 = 9;
/// "A named processor is n or more, or a named view `views` or more."
pub const OUT_OF_RANGE: u64 = 10;
/// "A view message or view certificate names a view that is not initial."
pub const NOT_INITIAL: u64 = 11;
/// "The signer is correct, or the processor shown to is faulty."
pub const WRONG_PARTY: u64 = 12;
/// "The message is not in the network."
pub const NOT_HELD: u64 = 13;
/// "The certificate shown does not exist."
pub const NO_CERTIFICATE: u64 = 14;
/// "The network has settled before."
pub const SETTLED_BEFORE: u64 = 15;
/// "A tick finds an overdue message."
pub const OVERDUE: u64 = 16;
/// "A correct clock would reach `views` times `gamma`."
pub const LAST_CLOCK: u64 = 17;
/// "The messages held after the event would exceed the network's words divided
/// by" 2, "rounded down."
pub const NETWORK_FULL: u64 = 18;
