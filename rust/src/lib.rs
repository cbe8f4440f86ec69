// SPDX-License-Identifier: MIT
#![doc = include_str!("../README.md")]

mod answer;
mod cache;
mod choices;
mod config;
mod error;
mod ffi;
mod history;
mod name;
mod reply;
mod request;
mod response;
mod stats;
mod stored;

pub use answer::{Answer, AnswerKind, Data, Entry, Rrset, Rrsets};
pub use cache::{Cache, Swept};
pub use choices::{Class, Mode, Outcome, RecordType, RrsetKind, Section, Trust};
pub use config::{Config, Limits};
pub use error::Error;
pub use name::Name;
pub use request::{Request, NOW};
pub use response::{Query, Report, Response, ResponseKind};
pub use stats::Stats;
pub use stored::{Denial, Failure, Negative, Set};
