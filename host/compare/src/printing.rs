//! What the programs say on standard output.

use std::io;

/// As std's, but a reader that wants no more, as `head`, ends the program and is no mistake.
#[macro_export]
macro_rules! println {
    ($($words:tt)*) => {{
        use std::io::Write as _;
        $crate::printing::said(writeln!(std::io::stdout(), $($words)*))
    }};
}

pub fn said(written: io::Result<()>) {
    match written {
        Ok(()) => (),
        Err(error) if error.kind() == io::ErrorKind::BrokenPipe => std::process::exit(0),
        Err(error) => {
            let _ = io::Write::write_fmt(&mut io::stderr(), format_args!("standard output: {error}\n"));
            std::process::exit(2);
        }
    }
}
