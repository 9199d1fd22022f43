//! Who may ask: this machine, from the page itself, with the token of the address.

use crate::serve::message::{Head, Reply};
use std::fs::File;
use std::io::{self, Read};

/// What a request must have.
pub struct Guard {
    host: String,
    origin: String,
    token: String,
}

impl Guard {
    /// A guard of a port, with a token that nobody can guess.
    pub fn new(port: u16) -> io::Result<Guard> {
        let mut bytes = [0; 16];
        File::open("/dev/urandom")?.read_exact(&mut bytes)?;
        let token = bytes.iter().map(|byte| format!("{byte:02x}")).collect();
        let host = format!("127.0.0.1:{port}");
        Ok(Guard { origin: format!("http://{host}"), host, token })
    }

    /// The address of the page.
    pub fn address(&self) -> String {
        format!("{}/{}/", self.origin, self.token)
    }

    /// What a request asks for, after the token, or why it is refused.
    pub fn admitted(&self, head: &Head) -> Result<String, Reply> {
        let refused = |why: &str| Err(Reply::text(403, why));
        if head.header("host") != Some(self.host.as_str()) {
            return refused("refused: another host than the desk's own\n");
        }
        if head.header("origin").is_some_and(|origin| origin != self.origin) {
            return refused("refused: another page than the desk's own\n");
        }
        if head.header("sec-fetch-site").is_some_and(|site| !matches!(site, "same-origin" | "none")) {
            return refused("refused: another site than the desk's own\n");
        }
        let path = head.target.split(['?', '#']).next().unwrap_or("");
        let Some((token, rest)) = path.strip_prefix('/').and_then(|path| path.split_once('/')) else {
            return refused("refused: the address has no token; open the one that the desk printed\n");
        };
        if !same(token.as_bytes(), self.token.as_bytes()) {
            return refused("refused: another token than the desk's own; open the address that the desk printed\n");
        }
        Ok(rest.to_string())
    }
}

/// Whether two words are the same, in a time that does not tell where they differ.
fn same(a: &[u8], b: &[u8]) -> bool {
    a.len() == b.len() && a.iter().zip(b).fold(0, |differs, (a, b)| differs | (a ^ b)) == 0
}
