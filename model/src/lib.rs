//! A model of the KATCP server of the lift group unit.
//!
//! It is written from documents 01 and 02 and the KATCP guideline alone, as a
//! second opinion on what they say. Above each function of the server stand
//! their words that it renders. The rest answers scripts of calls, makes
//! them, and compares another program's answers with the model's; a planner's
//! reader of one client's file is compared with what the device held.

pub mod arrival;
pub mod compare;
pub mod console;
pub mod device;
pub mod encode;
pub mod files;
pub mod generate;
pub mod message;
pub mod number;
pub mod others;
pub mod plan;
pub mod random;
pub mod readable;
pub mod reader;
pub mod requests;
pub mod sampling;
pub mod script;
pub mod sheet;
pub mod strategy;
pub mod tally;
pub mod tells;
pub mod value;
pub mod vectors;

pub use device::{Device, Profile};
pub use value::Reading;
