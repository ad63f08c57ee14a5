//! A second implementation of the paper, written from the paper alone, to compare the proved one with.

#[cfg(feature = "proved")]
pub mod abi;
pub mod chain;
#[cfg(feature = "proved")]
pub mod check;
pub mod edi;
pub mod frame;
pub mod generate;
pub mod line;
#[cfg(feature = "proved")]
pub mod line_abi;
pub mod listing;
pub mod log;
#[cfg(feature = "proved")]
pub mod logs_abi;
pub mod looks;
#[cfg(feature = "proved")]
pub mod packets_abi;
pub mod profile;
pub mod reed_solomon;
pub mod relay;
pub mod signalling;
pub mod sum;
pub mod walk;
pub mod why;
pub mod writing;
