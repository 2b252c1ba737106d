//! What a kernel must know of a call: the stack that it takes, and what it leaves of the registers.
//! Every call is made, in memory of the caller's own.

mod cases;
mod functions;
mod lengths;
mod own_stack;
mod registers;
mod stack;
