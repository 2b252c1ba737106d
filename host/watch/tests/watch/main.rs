//! What a timeline says of small boards.

mod bench;
mod missed;
mod reading;
mod rows;
mod rules;
mod ticks;
