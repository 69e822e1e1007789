//! Judges the answers about sheets and packets.

use crate::asked::Asked;
use crate::shown;
use crate::tally::Tally;
use crate::wire::{Answer, Case};
use crate::writer;

/// What a case asks, cut where it is long.
fn asked(case: &Case) -> String {
    format!("{:.1500}", shown::case(case))
}

/// What a case asked and both answers, for its first part that differs.
fn difference(case: &Case, got: Option<&[u8]>) -> String {
    let Some(mut rest) = got else {
        return format!("  no answer to {}", asked(case));
    };
    for part in case.parts() {
        let expected = part.answer().body();
        let (got, behind) = rest.split_at(expected.len().min(rest.len()));
        if got != expected {
            let [second, proved] = [&expected[..], got].map(|body| shown::answer(&part, body));
            return format!("  asked: {}\n  second program: {second}\n  proved program: {proved}", asked(&part));
        }
        rest = behind;
    }
    format!("  {} octets too many in the answer to {}", rest.len(), asked(case))
}

/// Whether what was written, if something was, reads back to what the message says.
fn reads_back(case: &Case, answer: &Answer) -> bool {
    let (Case::Write(_, message, names, _), Answer::Write(Ok(octets), out, back)) = (case, answer) else {
        return true;
    };
    let same = |read| writer::meaning(read, &out[..*octets]) == writer::meaning(message, names);
    matches!(back, Some(Ok(read)) if same(read))
}

impl Asked for Case {
    type Tally = Tally;

    fn octets(&self) -> Vec<u8> {
        Case::octets(self)
    }

    fn expected(&self) -> Vec<u8> {
        self.answer().body()
    }

    fn judge(&self, tally: &mut Tally, got: Option<&[u8]>) -> Option<String> {
        let answer = self.answer();
        tally.note(self, &answer);
        if got != Some(&answer.body()) {
            return Some(difference(self, got));
        }
        (!reads_back(self, &answer)).then(|| format!("  reads back as another message: {}", asked(self)))
    }
}

#[cfg(test)]
mod tests {
    use super::*;
    use crate::asked::tests::every_octet_counts;
    use crate::bench::{messages, sheet_s, NAMES};
    use crate::packet::Message;
    use crate::sample;

    #[test]
    fn every_octet_of_an_answer_counts() {
        every_octet_counts(&sample::cases());
    }

    #[test]
    fn another_message_read_back_is_seen() {
        let request = messages()[2].clone();
        let case = |message: &Message| Case::Write(sheet_s(), message.clone(), NAMES.to_vec(), 32);
        let written = case(&request);
        assert!(reads_back(&written, &written.answer()));
        let others = [
            Message { ssrc: 3, ..request.clone() },
            Message { ack: true, ..request.clone() },
            Message { user: Some(0..5), ..request.clone() },
            Message { named: Some(0..4), ..request.clone() },
            Message { indicator: Some(0), ..request },
        ];
        for other in others {
            assert!(!reads_back(&case(&other), &written.answer()), "{other:?}");
        }
    }
}
