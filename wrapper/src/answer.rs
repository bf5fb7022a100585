//! A handled request: the message, and what it says.
use crate::foreign::Handled;
use crate::refusal::Refusal;

/// What a message says.
#[derive(Clone, Copy, Debug, PartialEq, Eq)]
pub enum Outcome {
    /// 200: published, refreshed, changed or ended.
    Granted {
        /// The SIP-ETag, there written as eight lowercase hex digits.
        tag: u32,
        /// The time granted.
        seconds: u64,
    },
    /// Another status: 400, 404, 405, 412, 413, 415, 423, 489, 500 or 503.
    Refused {
        /// The status.
        status: u16,
        /// The seconds of Min-Expires at 423, or of Retry-After at 503.
        seconds: Option<u64>,
    },
}

/// A message to be sent, in the buffer that was lent for it, and what it says.
#[derive(Clone, Copy, Debug, PartialEq, Eq)]
pub struct Answer<'b> {
    /// The whole message.
    pub message: &'b [u8],
    /// What it says.
    pub outcome: Outcome,
}

impl Outcome {
    /// The status of the message.
    ///
    /// ```
    /// use windgusset::Outcome;
    ///
    /// assert_eq!(Outcome::Granted { tag: 1, seconds: 60 }.status(), 200);
    /// assert_eq!(Outcome::Refused { status: 423, seconds: Some(60) }.status(), 423);
    /// ```
    pub fn status(self) -> u16 {
        match self {
            Outcome::Granted { .. } => 200,
            Outcome::Refused { status, .. } => status,
        }
    }
}

// The answer that stands in a buffer, by the library's numbers.
pub(crate) fn answered(handled: Handled, buffer: &[u8]) -> Result<Answer<'_>, Refusal> {
    Refusal::check(handled.result)?;
    let message = buffer.get(..handled.length).ok_or(Refusal::Other(0))?;
    let outcome = match handled.status {
        200 => Outcome::Granted {
            tag: handled.tag,
            seconds: handled.seconds,
        },
        status => Outcome::Refused {
            status,
            seconds: Some(handled.seconds).filter(|seconds| *seconds != 0),
        },
    };
    Ok(Answer { message, outcome })
}

#[cfg(test)]
mod tests {
    use super::{answered, Outcome};
    use crate::foreign::Handled;
    use crate::refusal::Refusal;

    fn handled(length: usize, status: u16, result: u8) -> Handled {
        Handled {
            length,
            seconds: 7,
            tag: 9,
            status,
            result,
        }
    }

    #[test]
    fn the_message_is_the_front_of_the_buffer() {
        let answer = answered(handled(2, 200, 0), b"abc").unwrap();
        assert_eq!(answer.message, b"ab");
        assert_eq!(answer.outcome, Outcome::Granted { tag: 9, seconds: 7 });
        assert_eq!(answered(handled(3, 200, 0), b"abc").unwrap().message, b"abc");
    }

    #[test]
    fn a_length_past_the_buffer_is_no_answer() {
        assert_eq!(answered(handled(4, 200, 0), b"abc"), Err(Refusal::Other(0)));
        assert_eq!(answered(handled(usize::MAX, 200, 0), b""), Err(Refusal::Other(0)));
    }

    #[test]
    fn any_other_status_is_a_refusal_by_message() {
        for status in (0..=u16::MAX).filter(|status| *status != 200) {
            let outcome = answered(handled(1, status, 0), b"abc").unwrap().outcome;
            assert_eq!(
                outcome,
                Outcome::Refused {
                    status,
                    seconds: Some(7)
                }
            );
            assert_eq!(outcome.status(), status);
        }
    }

    #[test]
    fn no_result_but_0_has_an_answer() {
        for result in 1..=255 {
            assert_eq!(answered(handled(1, 200, result), b"abc").unwrap_err().number(), result);
        }
    }
}
