//! A trace in a file that takes its place when it ends.

use crate::tracer::{Made, Tracer};
use carv::Board;
use carv_files::{CannotWrite, OutputFile};
use std::cell::RefCell;
use std::fmt;
use std::io::{self, Write};
use std::rc::Rc;

/// A trace that is being written to a file.
pub struct TraceFile {
    tracer: Tracer<Shared>,
    file: Shared,
}

/// The file, which the tracer writes and which is put in its place behind it.
#[derive(Clone)]
struct Shared(Rc<RefCell<OutputFile>>);

impl Write for Shared {
    fn write(&mut self, bytes: &[u8]) -> io::Result<usize> {
        self.0.borrow_mut().write(bytes)
    }

    fn flush(&mut self) -> io::Result<()> {
        self.0.borrow_mut().flush()
    }
}

impl Shared {
    fn cannot(&self, why: io::Error) -> CannotWrite {
        self.0.borrow().cannot(why)
    }
}

impl TraceFile {
    /// Begins a trace in this file, with this board, as [`Tracer::new`].
    ///
    /// # Errors
    /// If it can't be written, as for all of these methods.
    pub fn begin(file: OutputFile, board: &Board) -> Result<Self, CannotWrite> {
        let file = Shared(Rc::new(RefCell::new(file)));
        let tracer = Tracer::new(file.clone(), board);
        let tracer = tracer.map_err(|why| file.cannot(why))?;
        Ok(Self { tracer, file })
    }

    /// Names a budget, as [`Tracer::name`].
    pub fn name(&mut self, id: u64, name: &str) {
        self.tracer.name(id, name);
    }

    /// A call that was made, and the board after it.
    ///
    /// # Errors
    /// As for [`begin`](Self::begin).
    pub fn note(&mut self, made: &Made<'_>, board: &Board) -> Result<(), CannotWrite> {
        let noted = self.tracer.note(made, board);
        noted.map_err(|why| self.file.cannot(why))
    }

    /// Something that happened, as [`Tracer::tell`].
    ///
    /// # Errors
    /// As for [`begin`](Self::begin).
    pub fn tell(&mut self, line: u64, text: &str) -> Result<(), CannotWrite> {
        let told = self.tracer.tell(line, text);
        told.map_err(|why| self.file.cannot(why))
    }

    /// Ends the trace, and puts it in its place.
    ///
    /// # Errors
    /// As for [`begin`](Self::begin).
    pub fn finish(self) -> Result<(), CannotWrite> {
        let Self { tracer, file } = self;
        tracer.finish().map_err(|why| file.cannot(why))?;
        let file = Rc::into_inner(file.0).expect("the tracer is gone");
        file.into_inner().finish()
    }
}

impl fmt::Debug for TraceFile {
    fn fmt(&self, f: &mut fmt::Formatter<'_>) -> fmt::Result {
        f.debug_struct("TraceFile").finish_non_exhaustive()
    }
}
