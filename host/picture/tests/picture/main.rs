//! What is drawn of small boards.

#[path = "../../../watch/tests/watch/bench.rs"]
mod bench;
mod drawing;
mod marks;
mod panel;
mod reading;
mod ticks;
mod times;
mod xml;
