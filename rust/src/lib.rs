//! The lazy round planner, for a host in Rust that keeps one planner and lends it to each call.
//!
//! Battery radio heads sleep between rounds. A host decides when the next round starts and which
//! heads send in it: as late as every deadline and the gap allow, earliest deadline first, and of
//! packets due at the same time the one that waits longest. Any two hosts that keep the annex, the
//! planner's specification, answer alike on every call, refused ones included. What is said here of
//! a call's answer, and of what planner and buffer are after it, is proved of the library that this
//! crate links; the crate itself is a thin layer over it, and not proved.
//!
//! ```
//! use planner::{packet, Planner, Refusal, Setting, Stream, MOST_SLOTS};
//!
//! // two slots a round, superframe 6, gap 6, as if a round had been held at 0, no messages
//! let setting = Setting { slots: 2, frame: 6, gap: 6, last: 0, messages: false };
//! let mut planner = Planner::open(setting)?;
//! planner.add(Stream { id: 1, release: 1, period: 3, deadline: 2 })?;
//! planner.add(Stream { id: 2, release: 1, period: 6, deadline: 6 })?;
//! planner.add(Stream { id: 3, release: 2, period: 6, deadline: 5 })?;
//!
//! // the next round is at 2, with a slot for stream 1 and one for stream 2
//! let mut ids = [0; MOST_SLOTS];
//! let round = planner.round(&mut ids)?;
//! assert_eq!((round.start, round.ids), (2, &[1, 2][..]));
//!
//! // what goes on air
//! let mut buffer = [0; packet::MOST_BYTES];
//! let sent = packet::write(round.start, planner.slots(), round.ids, &mut buffer)?;
//! assert_eq!(sent, [0, 0, 0, 2, 2, 2, 0, 1, 0, 2]);
//!
//! // a refusal has the number of the annex's table 1, and changes nothing
//! let refused = planner.remove(9).unwrap_err();
//! assert_eq!((refused, refused.number()), (Refusal::NoStream, 14));
//! assert_eq!(refused.to_string(), "14: no record has the id");
//! # Ok::<(), Refusal>(())
//! ```
//!
//! # What a caller should know
//!
//! - **The clauses.** `Annex 7.6` names a clause of the annex, which says what is meant; where this
//!   text and a clause part, the clause rules. The annex is `doc/annex.html` of the bundle, and
//!   `docs/ANNEX.md` of the planner's repository.
//! - **Numbers.** Times and lengths are whole numbers of time units. Any number of 32 bits may be
//!   passed, and is compared as it is passed (Annex 7.1). No call panics.
//! - **Messages.** A planner that is opened with them on takes remarks beside the streams
//!   ([`Planner::send`]), and a round lists them in the slots that its streams leave free. One slot
//!   of each round is kept for them: the streams have a slot fewer, in every rule and every round
//!   (Annex 3.16), so that a stream may be refused that fits with messages off.
//! - **Plans of others.** [`Planner::check`] says of packets laid end to end, whoever made them,
//!   whether they are a sound plan from a planner on, or which round is the first that breaks a rule.
//! - **Version.** This crate is for version [`VERSION`] of the library, and a planner is made only
//!   over a library that says it is of this version ([`check_version`]). Hosts on one bus run the
//!   same version (Annex 13.8).
//! - **Rust.** 1.81 or later.
//! - **The machine.** A 64-bit x86 machine, for which the library is built.
//! - **Stack.** A round takes some 17 kB, a check 11 kB, an add, a remove and a send 10 kB, as
//!   measured and not proved (Annex 13.9; `planner.h` has the figures). Nothing tests that there is
//!   as much.
//! - **No heap, no `std`.** The library needs `memcpy` and `memset` as C has them, and nothing else.
//! - **Where the library is.** `build.rs` looks for `libplanner.a` in the directory that
//!   `PLANNER_LIB_DIR` names; without it in `../lib`, as in the bundle, then in `../target/lib`. A
//!   relative path, in `PLANNER_LIB_DIR` too, is seen from this crate's folder, wherever cargo runs.

#![no_std]
#![deny(missing_docs)]
#![deny(unsafe_op_in_unsafe_fn)]

#[cfg(not(all(target_arch = "x86_64", target_pointer_width = "64")))]
compile_error!("the planner's library is built for a 64-bit x86 machine");

mod limits;
pub mod packet;
mod planner;
pub mod raw;
mod refusal;
mod superframe;
mod version;

pub use limits::{FURTHEST_RELEASE, LAST_START, LONGEST_FRAME, LONGEST_GAP, LONGEST_PERIOD};
pub use limits::{LARGEST_ID, LARGEST_MESSAGE, LEAST_MESSAGE, MOST_SLOTS, MOST_WAITING, PLACES};
pub use planner::{Planner, Round, Setting, Stream, Verdict};
pub use refusal::Refusal;
pub use superframe::superframe;
pub use version::{check_version, version};

/// Annex 7.40: the version that this crate is for, the first number of the crate's own.
pub const VERSION: u32 = 8;
