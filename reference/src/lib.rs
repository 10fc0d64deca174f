//! The independent model as a library, for its command, its tests and the benchmark.

#![forbid(unsafe_code)]

pub mod acpi;
pub mod blocks;
pub mod compiler;
pub mod configuration;
pub mod device;
pub mod generate;
pub mod images;
pub mod monitor;
pub mod nested;
pub mod own_run;
pub mod programs;
pub mod random;
pub mod resumed;
pub mod runs;
pub mod scripts;
pub mod sequencer;
pub mod shapes;
pub mod state;
pub mod stream;
pub mod text;
pub mod text_programs;
pub mod texts;

#[cfg(test)]
mod compiler_tests;
#[cfg(test)]
mod nested_tests;
#[cfg(test)]
mod owner_tests;
#[cfg(test)]
mod resumed_tests;
#[cfg(test)]
mod run_tests;
#[cfg(test)]
mod tests;
#[cfg(test)]
mod text_tests;
