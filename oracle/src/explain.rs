//! A trace as text with its answers as comments, the Rust's own words for each
//! refusal of a write beside the number that they tell, and where the actions of
//! a refused write come from. It still assembles to the same trace, as far as that
//! was run.

use arm_vgic::VgicError;

use crate::answers::{Answer, Form, Watcher, put_answer, watched_answers};
use crate::record::{Malformed, Record};
use crate::text;
use crate::unit::{Unit, Written};

pub fn explain(trace: &[u8]) -> String {
    let mut explained = Explained::default();
    let answers = watched_answers(trace, &mut explained);
    if let Some(left) = answers.left() {
        explained.text += &format!("#   (the run ends at {left}, which the Rust does not have)\n");
    }
    explained.text
}

#[derive(Default)]
struct Explained {
    text: String,
}

impl Watcher for Explained {
    fn answered(&mut self, record: &Record, answer: &Answer, _: Option<&Unit>) {
        self.text += &text::show(record);
        let mut lines = Vec::new();
        put_answer(&mut lines, answer, Form::Told);
        for line in String::from_utf8_lossy(&lines).lines() {
            self.text += &format!("#   {line}\n");
        }
        if let Answer::Wr(written) = answer {
            for said in reason(written).into_iter().chain(origin(written)) {
                self.text += &format!("#   ({said})\n");
            }
        }
    }

    fn malformed(&mut self, malformed: &Malformed) {
        self.text += &format!("#   ?? {}\n", malformed.offset);
    }
}

fn reason(written: &Written) -> Option<String> {
    Some(match written.error.as_ref()? {
        VgicError::InvalidAccess { detail, .. }
        | VgicError::InvalidConfig { detail }
        | VgicError::InvalidItsCommand { detail, .. }
        | VgicError::Unsupported { detail, .. } => detail.clone(),
        VgicError::ItsCommandBudgetExceeded { budget, .. } => {
            format!("more commands wait than the budget of {budget}")
        }
        VgicError::GuestMemory {
            address, detail, ..
        } => format!("{detail} at {address:#x}"),
        VgicError::ResourceNotFound { resource, .. } => format!("{resource} not found"),
    })
}

/// Where the actions of a refused write come from. A 9 is not the Rust's, which
/// throws nothing away there.
fn origin(written: &Written) -> Option<String> {
    let actions = match (written.stopped_midway(), written.handed.len()) {
        (false, _) | (_, 0) => return None,
        (_, 1) => "1 action".into(),
        (_, count) => format!("{count} actions"),
    };
    let does = if written.full.is_some() {
        "gives"
    } else {
        "throws away and gives"
    };
    Some(format!(
        "{actions}, which the Rust {does} when run up to the refused command"
    ))
}
