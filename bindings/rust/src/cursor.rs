//! Cursors that an execution asks for (MySQL: Client/Server Protocol, "COM_STMT_EXECUTE").

/// None: all rows come in the reply.
pub const CURSOR_TYPE_NO_CURSOR: u32 = 0;
/// One that only reads: rows are fetched.
pub const CURSOR_TYPE_READ_ONLY: u32 = 1;
/// One by which rows are updated, which no server has.
pub const CURSOR_TYPE_FOR_UPDATE: u32 = 2;
/// One that goes back, which no server has.
pub const CURSOR_TYPE_SCROLLABLE: u32 = 4;
