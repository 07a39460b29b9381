//! As much of `sawp` as the Rust file needs in order to compile. Only the error of `Diameter::parse` passes through it.

pub mod error {
    pub type NomError<I> = nom::error::Error<I>;
    pub type Result<T> = std::result::Result<T, Error>;

    /// Why a message was not accepted: bytes are absent, or it is refused.
    #[derive(Debug, Clone, Copy, PartialEq, Eq)]
    pub enum Error {
        Incomplete,
        Refused,
    }

    impl<I> From<nom::Err<NomError<I>>> for Error {
        fn from(error: nom::Err<NomError<I>>) -> Self {
            match error {
                nom::Err::Incomplete(_) => Error::Incomplete,
                nom::Err::Error(_) | nom::Err::Failure(_) => Error::Refused,
            }
        }
    }
}

pub mod parser {
    use crate::error::Result;
    use crate::protocol::Protocol;

    #[derive(Debug, Clone, Copy, PartialEq, Eq)]
    pub enum Direction {
        Unknown,
    }

    pub trait Parse<'a>: Protocol<'a> {
        fn parse(&self, input: &'a [u8], direction: Direction) -> Result<(&'a [u8], Option<Self::Message>)>;
    }
}

pub mod probe {
    pub trait Probe<'a>: crate::parser::Parse<'a> {}
}

pub mod protocol {
    pub trait Protocol<'a> {
        type Message: 'a;

        fn name() -> &'static str;
    }
}
