//! A second implementation of the rules paper (document 01), written from that paper and the list of
//! open points alone. It is there to be compared with the verified program, so it favours plain code
//! over fast code: each rule stands in one place, under the paper's own words.

pub mod refusal;
pub mod sizes;

pub mod envelope;
pub mod paths;
pub mod program;
pub mod reader;

pub mod estimates;
pub mod planner;

pub mod answer;
pub mod end;
pub mod semijoin;
pub mod store;
pub mod tables;

pub mod boundary;
pub mod calls;
pub mod script;

pub mod compare;
pub mod generate;
pub mod process;
pub mod random;
pub mod report;
