//! What the commands of a refused write asked for before the one that was
//! refused.
//!
//! The Rust collects the actions of a write in a list and throws the list away
//! when a command is refused. Nobody but the Rust says here what was in it: from
//! the same state, with CWRITER at the refused command, it carries out the same
//! commands, refuses none and delivers their actions. The same goes for a 9, which
//! the Rust does not have. Its state cannot be copied, so the records that led to
//! it are answered once more, in a run of their own.

use arm_vgic::{Delivered, GITS_CTLR, GITS_CWRITER};

use crate::answers::Run;
use crate::record::Record;
use crate::unit::Written;

/// The records that led to a unit's state: the window lent before it was
/// configured, its configuration, and the windows and writes since.
#[derive(Default)]
pub struct Past(Vec<Record>);

impl Past {
    /// Keeps a record that was answered; a read or a message changes nothing.
    pub fn keep(&mut self, record: Record) {
        match record {
            Record::Rd { .. } | Record::Tr { .. } => return,
            Record::Cf(_) => {
                let is_window = |earlier: &Record| matches!(earlier, Record::Gm { .. });
                let window = self.0.drain(..).rfind(is_window);
                self.0.extend(window);
            }
            Record::Gm { .. } | Record::Wr { .. } => {}
        }
        self.0.push(record);
    }

    /// The actions of the commands that the write after these records carried
    /// out before one was refused. While the unit is disabled CWRITER is only
    /// stored; enabling it then runs exactly those commands.
    pub fn actions_before(&self, refused: &Written) -> Vec<Delivered> {
        let mut run = Run::default();
        for record in &self.0 {
            run.answer(record);
        }
        let disabled = run.write(GITS_CTLR, 4, 0);
        let cut = run.write(GITS_CWRITER, 8, refused.offset);
        let again = run.write(GITS_CTLR, 4, 1);
        let carried_out = &refused.commands[..refused.done as usize];
        for (written, commands) in [(&disabled, &[][..]), (&cut, &[]), (&again, carried_out)] {
            assert!(
                written.refusal == 0 && written.commands == commands,
                "run once more up to the refused command, the Rust does not carry out the same \
                 commands: {written:?} in place of {refused:?}"
            );
        }
        again.actions
    }
}
