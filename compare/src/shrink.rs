//! A failing plan made small: steps are left out and simplified as long as it still fails.

use std::time::{Duration, Instant};

use crate::plan::{Plan, Step};
use crate::words::HOST_ALL;

/// A plan is not made smaller for longer than this.
const PATIENCE: Duration = Duration::from_secs(60);

/// `fails` says at which step a plan fails, if it does. The result fails, if the plan does.
pub fn shrink(plan: &Plan, fails: impl FnMut(&Plan) -> Option<usize>) -> Plan {
    let mut shrinking = Shrinking { small: plan.clone(), fails, end: Instant::now() + PATIENCE };
    if shrinking.accepts(plan.steps.clone()) {
        shrinking.leave_out();
        shrinking.simplify();
    }
    shrinking.small
}

struct Shrinking<F> {
    small: Plan,
    fails: F,
    end: Instant,
}

impl<F: FnMut(&Plan) -> Option<usize>> Shrinking<F> {
    /// Keeps the steps, up to the failing one, if they still fail.
    fn accepts(&mut self, steps: Vec<Step>) -> bool {
        let mut plan = Plan { steps, ..self.small.clone() };
        if Instant::now() > self.end {
            return false;
        }
        match (self.fails)(&plan) {
            Some(last) => {
                plan.steps.truncate(last + 1);
                self.small = plan;
                true
            }
            None => false,
        }
    }

    /// Stretches of steps, ever shorter, down to single ones until none can go.
    fn leave_out(&mut self) {
        let mut size = self.small.steps.len().div_ceil(2);
        while size > 0 {
            let mut removed = false;
            let mut at = 0;
            while at < self.small.steps.len() {
                let mut steps = self.small.steps.clone();
                steps.drain(at..(at + size).min(steps.len()));
                if self.accepts(steps) {
                    removed = true;
                } else {
                    at += size;
                }
            }
            if size > 1 || !removed {
                size /= 2;
            }
        }
    }

    /// The host word that grants all, wherever it does not matter.
    fn simplify(&mut self) {
        for at in 0..self.small.steps.len() {
            let mut steps = self.small.steps.clone();
            if steps.get(at).is_some_and(|step| step.host != HOST_ALL) {
                steps[at].host = HOST_ALL;
                self.accepts(steps);
            }
        }
    }
}
