//! What the helps of several commands say of their options.

/// Of commands that take files and folders.
macro_rules! of_files {
    () => {
        "  --recursive   the files of folders inside folders too, also those that only begin as a Prefetch
                file does
  --patient     also what is made to be slow: a file whose names or directories overlap many times
                is else not read
"
    };
}

/// Of commands that write a table.
macro_rules! of_tables {
    () => {
        "  --csv         comma-separated, with a line of titles
  --json        an array with an object for each row
"
    };
}

pub(crate) use {of_files, of_tables};
