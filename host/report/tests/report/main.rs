//! Reports on small boards, held against figures that are worked in another way.

mod accounts;
mod answers;
mod csv;
mod day;
mod openings;
mod refusals;
mod run;
mod services;
mod shares;
mod whole;
