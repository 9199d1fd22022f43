//! A request and an answer of HTTP.

/// The first lines of a request.
pub struct Head {
    /// GET or POST, or a method that is refused.
    pub method: String,
    /// What is asked for.
    pub target: String,
    /// The headers, each name in small letters and none twice.
    pub headers: Vec<(String, String)>,
}

impl Head {
    /// A header that stands there once.
    pub fn header(&self, name: &str) -> Option<&str> {
        self.headers.iter().find(|(own, _)| own == name).map(|(_, value)| value.as_str())
    }
}

/// A request that was admitted.
pub struct Request {
    /// Whether something is to be done, not only shown.
    pub is_post: bool,
    /// What is asked for, after the token.
    pub path: String,
    /// What stands after the question mark.
    pub query: String,
    /// What was sent along.
    pub body: Vec<u8>,
}

/// An answer.
pub struct Reply {
    /// Its number.
    pub status: u16,
    /// What the body is.
    pub kind: &'static str,
    /// Further headers.
    pub headers: Vec<String>,
    /// The body.
    pub body: Vec<u8>,
}

impl Reply {
    /// An answer of plain text.
    pub fn text(status: u16, words: &str) -> Reply {
        Reply { status, kind: "text/plain; charset=utf-8", headers: Vec::new(), body: words.as_bytes().to_vec() }
    }

    /// An answer of a kind.
    pub fn of(kind: &'static str, body: impl Into<Vec<u8>>) -> Reply {
        Reply { status: 200, kind, headers: Vec::new(), body: body.into() }
    }
}
