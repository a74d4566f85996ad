//! The tokens of hosts: what their file may have, which rights a token has by it, and how often it was read again.

use crate::talk::Rights;

/// What a file of tokens may have. A host begins with the first, and has it again in the calm.
pub const VERSIONS: [&str; 5] = [
    "all *\nlook read\nfirst 0\nsecond 1\n",
    "all *\nfirst 0\nsecond 1\n",
    "all *\nlook read\nfirst 1\nsecond 1\n",
    "# fewer\nall *\n\nlook 0\nsecond 1\nnobody read\n",
    "look read\nfirst 0\n",
];

/// The rights of a token in a version of the file, if it is there.
pub fn rights_in(version: usize, token: &str) -> Option<Rights> {
    let lines = VERSIONS[version].lines().filter_map(|line| line.split_once(' '));
    let rights = lines.filter(|(word, _)| *word == token).map(|(_, rights)| match rights {
        "*" => Rights::All,
        "read" => Rights::Read,
        origin => Rights::Origin(origin.parse().expect("it is a number")),
    });
    rights.last()
}

/// Whether a token that had rights in one version has others in the other, or none.
pub fn is_lost(before: usize, now: usize, token: &str) -> bool {
    let had = rights_in(before, token);
    had.is_some() && had != rights_in(now, token)
}

/// How the file of tokens of a host is.
#[derive(Clone, Copy, Debug, PartialEq, Eq)]
pub enum TokenFile {
    Version(usize),
    /// A line of it is none.
    Bad,
    /// It has no token.
    Empty,
    /// It can't be read.
    Unread,
    /// Others may read it.
    Shown,
}

impl TokenFile {
    /// What is read of it; or how it can't be.
    pub fn text(self) -> Result<&'static [u8], u32> {
        match self {
            TokenFile::Version(version) => Ok(VERSIONS[version].as_bytes()),
            TokenFile::Bad => Ok(b"all *\nlook at this\n"),
            TokenFile::Empty => Ok(b"# nobody\n"),
            TokenFile::Unread => Err(1),
            TokenFile::Shown => Err(2),
        }
    }

    /// How an operator is told that it is not taken, where it is not.
    pub fn refusal(self) -> Option<&'static str> {
        match self {
            TokenFile::Version(_) => None,
            TokenFile::Bad => Some("no tokens: line 2: behind the token is neither * nor read nor ORIGIN[,ORIGIN].."),
            TokenFile::Empty => Some("no tokens: it has no token"),
            TokenFile::Unread => Some("no tokens: their file can't be read"),
            TokenFile::Shown => Some("no tokens: others may read or write their file"),
        }
    }
}
