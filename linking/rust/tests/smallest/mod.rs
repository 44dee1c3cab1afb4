//! The smallest table.

use reference::table_file::TableFile;

/// One state and one operation, which reads and answers 7.
pub fn smallest() -> TableFile {
    TableFile::plain(1, 1, 0, &[(0, 7)])
}
